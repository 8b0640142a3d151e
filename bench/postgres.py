"""PostgreSQL, which carries out the same deliveries with row locks, in a cluster made for this."""

import glob
import os
import pwd
import re
import secrets
import shutil
import signal
import subprocess
import sys
import time
from collections.abc import Mapping, Sequence
from dataclasses import dataclass

from built import HERE, say
from loads import Load, Work, by_pgbench
from services import START, Pace, Server
from support.fronts import free_port

# where Debian puts the programs of each version, and the user that Debian makes for them
VERSIONS = "/usr/lib/postgresql/*/bin"
OWNER = "postgres"

# settings beside the defaults: it listens on no other address and no socket, and has room for the clients
SETTINGS = ["listen_addresses=127.0.0.1", "unix_socket_directories=", "shared_buffers=256MB", "max_connections=300"]

# how many seconds one of its programs may take to start or to end
WAITED = 30


@dataclass(frozen=True)
class Cluster:
    """A cluster of PostgreSQL: the folder of its programs, its own folder, its password, and the user whom it belongs to where
    that is not the one who runs this."""

    programs: str
    folder: str
    password: str
    owner: str | None

    def program(self, name: str) -> str:
        return os.path.join(self.programs, name)

    def data(self) -> str:
        return os.path.join(self.folder, "data")

    def version(self) -> str:
        """The version that its programs report, without a packager's words."""
        return subprocess.run([self.program("postgres"), "--version"], capture_output=True, text=True).stdout.split()[2]

    def start(self, name: str, words: Sequence[str], environment: Mapping[str, str]) -> subprocess.Popen[bytes]:
        """Starts one of its programs as the owner. What the program writes goes into a file."""
        groups: list[int] | None = None if self.owner is None else []
        group = self.owner and pwd.getpwnam(self.owner).pw_gid
        with open(os.path.join(self.folder, "log"), "ab") as log:
            return subprocess.Popen(
                [self.program(name), *words],
                stdin=subprocess.DEVNULL,
                stdout=log,
                stderr=log,
                cwd=self.folder,
                env=environment,
                user=self.owner,
                group=group,
                extra_groups=groups,
            )

    def told(self) -> str:
        """The end of what its programs wrote."""
        with open(os.path.join(self.folder, "log"), encoding="utf-8", errors="replace") as log:
            return log.read()[-2000:]

    def at(self, name: str, port: int) -> list[str]:
        """One of the programs that connect to the server, with the options that say where it is."""
        return [self.program(name), "-h", "127.0.0.1", "-p", str(port), "-U", OWNER]

    def asking(self) -> dict[str, str]:
        """The environment of these programs; it has the password."""
        return {**os.environ, "PGPASSWORD": self.password}


def newest_programs() -> str | None:
    """The folder of the newest version of PostgreSQL that has all programs that are needed."""
    able = [path for path in glob.glob(VERSIONS) if os.path.exists(os.path.join(path, "pgbench"))]
    numbered = [(int(found[1]), path) for path in able if (found := re.search(r"/(\d+)/bin$", path))]
    return max(numbered)[1] if numbered else None


def owner_of_clusters() -> str | None:
    """The user that Debian makes for clusters, where this runs as root, as which PostgreSQL does not run; else None."""
    return OWNER if os.geteuid() == 0 else None


def make_cluster(folder: str) -> Cluster | None:
    """A new cluster in that folder, or None where PostgreSQL is not here."""
    programs, owner = newest_programs(), owner_of_clusters()
    if programs is None:
        say("without PostgreSQL, since it is not here (Debian: postgresql)")
        return None
    os.mkdir(folder, 0o700)
    cluster = Cluster(programs, folder, secrets.token_hex(16), owner)
    secret = os.path.join(folder, "password")
    with open(secret, "w", encoding="ascii") as file:
        file.write(cluster.password)
    if owner:
        shutil.chown(folder, owner)
        shutil.chown(secret, owner)
    fill(cluster, secret)
    return cluster


def fill(cluster: Cluster, secret: str) -> None:
    """Makes the files of a new cluster."""
    words = ["-D", cluster.data(), "-U", OWNER, "-A", "md5", "--pwfile", secret, "-E", "UTF8", "--locale", "C", "--no-sync"]
    process = cluster.start("initdb", words, os.environ)
    try:
        status = process.wait(WAITED)
    except BaseException:
        process.kill()
        process.wait()
        raise
    if status:
        sys.exit(f"bench: initdb: {cluster.told()}")


class Postgres(Server):
    """PostgreSQL, which carries out each delivery in one transaction with a lock on the field's row."""

    def __init__(self, cluster: Cluster, pace: Pace, settings: Sequence[str]):
        self.cluster, self.pace = cluster, pace
        self.settings = [*SETTINGS, *settings]

    def __enter__(self) -> "Postgres":
        self.port = free_port()
        words = ["-D", self.cluster.data(), "-p", str(self.port)]
        words += [word for setting in self.settings for word in ("-c", setting)]
        self.process = self.cluster.start("postgres", words, self.pace.environment())
        try:
            self.wait_until_ready()
            self.ask("-f", os.path.join(HERE, "postgres.sql"))
        except BaseException:
            self.end()
            raise
        return self

    def wait_until_ready(self) -> None:
        until = time.monotonic() + WAITED
        while subprocess.run(self.cluster.at("pg_isready", self.port), stdout=subprocess.DEVNULL).returncode:
            if self.process.poll() is not None or time.monotonic() > until:
                sys.exit(f"bench: PostgreSQL does not start: {self.cluster.told()}")
            time.sleep(0.05)

    def ask(self, *words: str) -> str:
        """What `psql` writes, with bars between the columns."""
        options = ["-X", "-q", "-A", "-t", "-v", "ON_ERROR_STOP=1", "-d", "postgres"]
        command = [*self.cluster.at("psql", self.port), *options, *words]
        ended = subprocess.run(command, env=self.cluster.asking(), capture_output=True, text=True)
        if ended.returncode:
            sys.exit(f"bench: psql: {ended.stderr}")
        return ended.stdout

    def __exit__(self, *_: object) -> None:
        self.end()

    def end(self) -> None:
        """Ends it fast, without waiting for sessions."""
        self.process.send_signal(signal.SIGINT)
        try:
            self.process.wait(WAITED)
        except subprocess.TimeoutExpired:
            # at once, with all its child processes
            self.process.send_signal(signal.SIGQUIT)
            self.process.wait()

    def load(self, work: Work, clients: int, seconds: int) -> Load:
        command = [*self.cluster.at("pgbench", self.port), "postgres"]
        return by_pgbench(command, self.cluster.asking(), self.cluster.folder, work, clients, seconds)

    def kept(self) -> tuple[int, int]:
        told = self.ask("-c", f"select (select count(*) from kept), (select sum(value - {START}) from field)")
        moves, pieces = told.strip().split("|")
        return int(moves), int(pieces)
