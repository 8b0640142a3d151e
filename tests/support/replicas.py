"""Three machines that hold a desk, each with a member of etcd, `stockdesk-replica` with its desk, and a front."""

import asyncio
import contextlib
import os
import random
import re
import shutil
import signal
import subprocess
import sys
import time
from collections.abc import Callable

from stockdesk_tools import OLD_FILE
from support import DEPLOY, TOP
from support.copies import BACKUP, RESTORE
from support.fronts import Haproxy
from support.programs import done, expect, new_desk
from support.replica_network import MACHINES, Failed, made_network, run
from support.tables import rows_of

REPLICA = os.path.join(DEPLOY, "stockdesk-replica")
PORT, FRONT_PORT, PEER_PORT, ETCD_PORT = 8080, 8443, 2380, 2379
# how long, in seconds, a question to etcd may take in a test, and how long a machine may take to come up
ETCD_SECONDS, UP_SECONDS = 10, 120

KINDS = ["etcd", "replica", "front"]
# a kind of process and the machine it runs on
Part = tuple[str, int]


def told_to_operators(part: str) -> str:
    """The one block of the operators' guide that contains this text."""
    with open(os.path.join(TOP, "docs", "REPLICAS.md"), encoding="utf-8") as file:
        found = [block for block in re.findall(r"^```sh\n(.*?)^```$", file.read(), re.DOTALL | re.MULTILINE) if part in block]
    expect(len(found) == 1, f"the guide has {len(found)} blocks with {part}")
    return found[0]


def make_certificates(folder: str, net: str) -> None:
    """Makes an authority, and for each machine a certificate with its key, as the guide says."""
    # on the loopback a member's connections come from an address other than its own
    names = "subjectAltName=IP:127.0.0.1,IP:" if net.startswith("127.") else "subjectAltName=IP:"
    script = told_to_operators("-subj /CN=members").replace("10.0.0.", f"{net}.").replace("subjectAltName=IP:", names)
    subprocess.run(["sh", "-ec", script], cwd=folder, check=True, capture_output=True)


def settings_of(machine: int, net: str, folder: str) -> dict[str, str]:
    """What the guide gives to the member of etcd on a machine, with this machine's name and addresses."""
    lines = re.findall(r"^(ETCD_\w+)=(.*)$", told_to_operators("cat > /etc/default/etcd"), re.MULTILINE)
    own = {name: value.replace("m1", f"m{machine}").replace("10.0.0.1", f"{net}.{machine}") for name, value in lines}
    own["ETCD_INITIAL_CLUSTER"] = dict(lines)["ETCD_INITIAL_CLUSTER"].replace("10.0.0.", f"{net}.")
    return {name: value.replace("/etc/etcd", folder) for name, value in own.items()}


class Machines:
    """The machines, in a folder. A process of theirs that ends is started again, as systemd does it."""

    def __init__(self, program: str, folder: str, mark_lines: int = 20_000, has_fronts: bool = True):
        self.program, self.root, self.mark_lines = program, folder, mark_lines
        # from how many places on a roll comes, and how many keys stay then
        self.roll_from, self.keys = 190_000, 100_000
        self.kinds = KINDS if has_fronts else KINDS[:2]
        self.network = made_network()
        self.processes: dict[Part, subprocess.Popen] = {}
        self.wanted: set[Part] = set()
        self.state, self.log, self.restart_seconds = "new", "desk/1", (0.1, 1.0)
        self.interpreter, self.replica = ["/usr/bin/python3"], REPLICA
        self.ends: list[tuple[str, int]] = []
        self.fronts: dict[int, Haproxy] = {}

    # ---- files and words

    def folder(self, machine: int) -> str:
        return os.path.join(self.root, f"m{machine}")

    def desk(self, machine: int) -> str:
        return os.path.join(self.folder(machine), "desk", "desk.db")

    def address(self, machine: int) -> str:
        return self.network.address(machine)

    def make_desk(self, machine: int) -> None:
        os.makedirs(os.path.dirname(self.desk(machine)), exist_ok=True)
        new_desk(self.program, os.path.dirname(self.desk(machine)))

    def make_front(self, machine: int) -> None:
        folder = os.path.join(self.root, f"front{machine}")
        os.mkdir(folder)
        front = self.fronts[machine] = Haproxy(folder, PORT)
        front.environment |= {"FRONT": f"{self.address(machine)}:{FRONT_PORT}", "DESK": f"{self.address(machine)}:{PORT}"}

    def words(self, kind: str, machine: int) -> list[str]:
        here, name = self.address(machine), f"m{machine}"
        if kind == "front":
            return self.fronts[machine].words
        if kind == "etcd":
            return ["etcd", "--logger", "zap", "--log-level", "error", "--snapshot-count", "5000"]
        words = [*self.interpreter, self.replica, name, self.desk(machine), "--listen", f"{here}:{PORT}", "--program"]
        words += [self.program, "--etcd", f"{self.network.etcd_address(machine)}:{ETCD_PORT}", "--log", self.log]
        words += ["--pid", f"{self.folder(machine)}/pid", "--mark-lines", str(self.mark_lines)]
        return [*words, "--roll-from", str(self.roll_from), "--keys", str(self.keys)]

    def environment(self, kind: str, machine: int) -> dict[str, str]:
        if kind == "front":
            return self.fronts[machine].environment
        if kind == "replica":
            return dict(os.environ)
        found = settings_of(machine, self.network.net, self.root) | {"ETCD_DATA_DIR": f"{self.folder(machine)}/etcd"}
        client = f"http://{self.network.etcd_address(machine)}:{ETCD_PORT}"
        found |= {"ETCD_LISTEN_CLIENT_URLS": client, "ETCD_ADVERTISE_CLIENT_URLS": client}
        return {**os.environ, **found, "ETCD_INITIAL_CLUSTER_STATE": self.state}

    # ---- up and down

    def make(self) -> None:
        make_certificates(self.root, self.network.net)
        for machine in MACHINES:
            self.make_desk(machine)
            if "front" in self.kinds:
                self.make_front(machine)

    def start_all(self) -> None:
        for kind in self.kinds:
            for machine in MACHINES:
                self.start(kind, machine)

    def start(self, kind: str, machine: int) -> None:
        environment = self.environment(kind, machine)
        with open(os.path.join(self.root, f"{kind}{machine}.log"), "ab") as log:
            words = [*self.network.inside(machine), *self.words(kind, machine)]
            process = subprocess.Popen(words, stdin=subprocess.DEVNULL, stdout=log, stderr=log, env=environment)
        self.processes[kind, machine] = process
        self.wanted.add((kind, machine))

    async def keep_up(self) -> None:
        """Starts what has ended again, a moment later."""
        waits: dict[Part, float] = {}
        while True:
            for part in [each for each in self.wanted if self.processes[each].poll() is not None]:
                if part not in waits:
                    self.ends.append((part[0], self.processes[part].returncode))
                    waits[part] = time.monotonic() + random.uniform(*self.restart_seconds)
                elif time.monotonic() > waits[part]:
                    del waits[part]
                    self.start(*part)
            await asyncio.sleep(0.05)

    async def stop(self, kind: str, machine: int) -> None:
        self.wanted.discard((kind, machine))
        self.signal(kind, machine, signal.SIGKILL)
        while self.processes[kind, machine].poll() is None:
            await asyncio.sleep(0.02)

    def down(self) -> None:
        """Ends all processes, and removes the network."""
        self.wanted.clear()
        for process in self.processes.values():
            with contextlib.suppress(ProcessLookupError):
                process.kill()
        for process in self.processes.values():
            process.wait()
        self.network.down()
        for machine in MACHINES:
            # a desk ends with its replica, and holds its lock until then
            with contextlib.suppress(FileNotFoundError):
                run("flock", f"{self.desk(machine)}.lock", "true")

    def said(self, kind: str, machine: int) -> list[str]:
        with open(os.path.join(self.root, f"{kind}{machine}.log"), encoding="utf-8", errors="replace") as log:
            return log.read().splitlines()

    # ---- processes

    def pid(self, kind: str, machine: int) -> int | None:
        """The process of a part of a machine; for a desk it is the child of its replica's process."""
        process = self.processes.get(("replica" if kind == "desk" else kind, machine))
        if process is None or process.poll() is not None:
            return None
        if kind != "desk":
            return process.pid
        with contextlib.suppress(FileNotFoundError, ValueError):
            with open(f"{self.folder(machine)}/pid", encoding="ascii") as file:
                pid = int(file.read())
            return pid if parent_of(pid) == process.pid else None
        return None

    def signal(self, kind: str, machine: int, number: int) -> bool:
        pid = self.pid(kind, machine)
        if pid is None:
            return False
        with contextlib.suppress(ProcessLookupError):
            os.kill(pid, number)
            return True
        return False

    # ---- etcd

    def etcdctl(self, machine: int, *words: str, seconds: float = ETCD_SECONDS) -> str:
        endpoint = f"http://{self.network.etcd_address(machine)}:{ETCD_PORT}"
        return run(
            *self.network.inside(machine), "env", "ETCDCTL_API=3", "etcdctl", "--endpoints", endpoint, *words, seconds=seconds
        )

    def leader(self) -> int | None:
        for machine in MACHINES:
            with contextlib.suppress(Failed):
                told = self.etcdctl(machine, "endpoint", "status", "-w", "fields", seconds=3)
                facts = dict(line.split(" : ", 1) for line in told.splitlines() if " : " in line)
                if facts.get('"Leader"') == facts.get('"MemberID"'):
                    return machine
        return None

    def marks(self, machine: int) -> list[tuple[int, str]]:
        """The revision and the machine of each mark in the log."""
        keys = self.etcdctl(machine, "get", "--prefix", f"{self.log}/marks/", "--keys-only").split()
        return [(int(key.split("/")[-2]), key.split("/")[-1]) for key in keys]

    def told(self, machine: int) -> dict[tuple[int, str], str]:
        """What each machine has told at each mark, by the mark's revision and the machine's name."""
        lines = self.etcdctl(machine, "get", "--prefix", f"{self.log}/marks/").splitlines()
        keys = [key.split("/")[-2:] for key in lines[::2]]
        return {(int(revision), name): value for (revision, name), value in zip(keys, lines[1::2], strict=True)}

    def add_roll(self, machine: int) -> None:
        """Adds a roll to the log, as an operator does, by a machine's member of etcd."""
        newest = max((revision for revision, _ in self.marks(machine)), default=0)
        self.etcdctl(machine, "put", f"{self.log}/log", f"roll {newest} {self.keys}")

    async def begin_log(self) -> None:
        """Has the log begin with the first machine's desk."""
        words = [*self.network.inside(1), *self.words("replica", 1), "--begin"]
        await asyncio.to_thread(run, *words)

    def compact(self) -> int:
        """Compacts the log up to the newest mark that every machine has passed. Returns that mark's revision, or 0 where there is
        none."""
        told = self.marks(1)
        newest = [max((revision for revision, name in told if name == f"m{each}"), default=0) for each in MACHINES]
        if min(newest):
            with contextlib.suppress(Failed):
                self.etcdctl(1, "compact", str(min(newest)))
        return min(newest)

    def member(self, donor: int, machine: int) -> str | None:
        """The identifier of a machine's member, as another member lists it."""
        peer = f"https://{self.address(machine)}:{PEER_PORT}"
        lines = self.etcdctl(donor, "member", "list").splitlines()
        return next((line.split(",")[0] for line in lines if peer in line), None)

    async def try_until(self, act: Callable[[], bool]) -> None:
        """Etcd may have no leader yet, and takes no new member until those that it has are healthy."""
        latest = time.monotonic() + UP_SECONDS
        while time.monotonic() < latest:
            with contextlib.suppress(Failed):
                if await asyncio.to_thread(act):
                    return
            await asyncio.sleep(0.5)
        raise Failed("etcd does not change its members")

    # ---- disks

    async def lose_disk(self, machine: int, donor: int) -> None:
        """A machine loses its disk; its new member is added, and not started."""
        for kind in ("replica", "etcd"):
            await self.stop(kind, machine)
        for name in ("etcd", "desk"):
            shutil.rmtree(os.path.join(self.folder(machine), name))

        def remove() -> bool:
            if (member := self.member(donor, machine)) is None:
                return True
            self.etcdctl(donor, "member", "remove", member)
            return False

        def add() -> bool:
            if self.member(donor, machine) is not None:
                return True
            self.etcdctl(donor, "member", "add", f"m{machine}", f"--peer-urls=https://{self.address(machine)}:{PEER_PORT}")
            return False

        await self.try_until(remove)
        await self.try_until(add)
        self.state = "existing"

    def back_up(self, machine: int) -> str | None:
        """The path of a copy of a desk, made while the desk is served, if it could be made."""
        copies = os.path.join(self.root, f"copies{machine}")
        os.makedirs(copies, exist_ok=True)
        with open(f"{self.folder(machine)}/pid", encoding="ascii") as file:
            words = [sys.executable, BACKUP, file.read().strip(), self.desk(machine), copies, "--program", self.program]
        ran = subprocess.run(words, capture_output=True, text=True)
        return os.path.join(copies, ran.stdout.strip()) if ran.returncode == 0 else None

    def restore(self, machine: int, copy: str) -> None:
        os.makedirs(os.path.dirname(self.desk(machine)), exist_ok=True)
        run(sys.executable, RESTORE, copy, self.desk(machine), "--program", self.program)

    def tables(self) -> list[list[str]]:
        """The rows of each desk; nobody has the desks open. The program has to find all of them good."""
        for machine in MACHINES:
            done(self.program, ["run", self.desk(machine)])
        return [rows_of(self.desk(machine)) for machine in MACHINES]

    def olds(self, machine: int) -> list[str]:
        """The files of a machine's desk from before it was rolled up."""
        folder = os.path.dirname(self.desk(machine))
        return sorted(os.path.join(folder, name) for name in os.listdir(folder) if OLD_FILE.fullmatch(name))


def parent_of(pid: int) -> int | None:
    with contextlib.suppress(OSError):
        with open(f"/proc/{pid}/stat", encoding="latin-1") as file:
            return int(file.read().rpartition(")")[2].split()[1])
    return None
