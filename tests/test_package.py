"""Tests of the package: it is installed, upgraded and removed on a fresh Debian without touching a desk. And tests of its manual
page and of its units."""

import asyncio
import glob
import gzip
import importlib.util
import os
import re
import shlex
import shutil
import stat
import tempfile
import unittest

from support import DEPLOY, TOP
from support.cases import ProgramCase, needs
from support.copies import BACKUP, RESTORE, alone
from support.deal_chains import chain
from support.deal_runs import CARRIER
from support.documents import headings_of, links_of, text_of
from support.fronts import PAGE, TOGETHER
from support.packages import SUITES, Inside, built, fresh_debian, newer, put_sources, run
from support.programs import bytes_of, done, expect, note
from support.replica_clients import asked, commanded, wait_until_well
from support.replica_network import MACHINES
from support.replicas import PORT, REPLICA, UP_SECONDS, Machines
from support.rolled import play_and_kill
from support.service import Service, post
from support.units import settings_of

TOOLS = [os.path.basename(path) for path in glob.glob(os.path.join(DEPLOY, "stockdesk-*")) if "." not in os.path.basename(path)]
MODULES = [os.path.basename(path) for path in glob.glob(os.path.join(DEPLOY, "stockdesk_*.py"))]
ROLLOVER = os.path.join(DEPLOY, "stockdesk-rollover")
CLOCK = os.path.join(DEPLOY, "stockdesk-clock")
UNITS = sorted(glob.glob(os.path.join(DEPLOY, "*.service")) + glob.glob(os.path.join(DEPLOY, "*.timer")))
# a unit of a service, and below which number its exposure is
EXPOSED = {"stockdesk@.service": 2.0, "stockdesk-backup@.service": 2.5, "stockdesk-check@.service": 2.5}
EXPOSED["stockdesk-between.service"] = 2.5
EXPOSED["stockdesk-certificate.service"] = 2.5
EXPOSED["stockdesk-clock@.service"] = 2.5
EXPOSED["stockdesk-replica@.service"] = 2.5
EXPOSED["stockdesk-roll@.service"] = 2.5
SHARED = [
    "User=stockdesk",
    "CapabilityBoundingSet=",
    "NoNewPrivileges=yes",
    "MemoryDenyWriteExecute=yes",
    "SystemCallArchitectures=native",
]
SHARED += ["SystemCallFilter=@system-service", "SystemCallFilter=~@privileged @resources"]


# ---- the package


# looks at the package whose path follows; about another program than the proved one it may find less
LINTIAN = "lintian --display-info --pedantic --tag-display-limit 0 --suppress-tags unused-override".split()


@needs("dpkg-buildpackage", "dh", "go-md2man", "pkgconf")
class Package(ProgramCase):
    @classmethod
    def setUpClass(cls):
        super().setUpClass()
        cls.path = built(cls.enterClassContext(tempfile.TemporaryDirectory()))

    def test_the_package_is_of_the_proved_program(self):
        """The package has the program's bytes, and the version of the newest change; a program that is older than a source, or
        none, is refused."""
        path = self.path
        with open(os.path.join(TOP, "CHANGELOG.md"), encoding="utf-8") as file:
            version = re.search(r"^## (\S+)", file.read(), re.MULTILINE)[1]
        expect(os.path.basename(path) == f"stockdesk_{version}_amd64.deb", f"another name: {path}")
        expect(run(["dpkg-deb", "--field", path, "Version"]).stdout.strip() == version, "another version")
        tree = unpacked(path, self.folder)
        expect(bytes_of(os.path.join(tree, "usr/bin/stockdesk")) == bytes_of(self.program), "another program")
        for folder, names in [
            ("usr/share/stockdesk/page", os.listdir(PAGE)),
            ("usr/lib/stockdesk", [*TOOLS, *MODULES, "close-port"]),
        ]:
            packed = os.listdir(os.path.join(tree, folder))
            expect(sorted(packed) == sorted(names), f"{folder} has {packed}")
        known = text_of(os.path.join(tree, "usr/share/stockdesk/example-passwords")).splitlines()
        expect(known == re.findall(r" password (\S+) ", text_of(os.path.join(DEPLOY, "users.cfg"))), f"other passwords: {known}")
        copy = os.path.join(self.folder, "copy")
        put_sources(copy)
        refused = run([os.path.join(copy, "deploy/package"), self.folder])
        expect(refused.returncode == 1 and "not there" in refused.stderr, f"no program: {refused}")
        os.makedirs(os.path.join(copy, "crates/stockdesk/out"))
        os.makedirs(os.path.join(copy, "crates/book/proofs/plan"))
        shutil.copy(self.program, os.path.join(copy, "crates/stockdesk/out"))
        os.utime(os.path.join(copy, "crates/stockdesk/out/stockdesk"), (1, 1))
        refused = run([os.path.join(copy, "deploy/package"), self.folder])
        expect(refused.returncode == 1 and "older" in refused.stderr, f"an older program: {refused}")

    @needs("lintian")
    def test_lintian_finds_nothing(self):
        """The package gives a reason for all else that lintian finds."""
        told = run([*LINTIAN, self.path])
        expect((told.returncode, told.stdout) == (0, ""), f"lintian: {told.stdout}{told.stderr}")

    def test_the_manual_tells_each_command_and_status(self):
        """The manual has what `--help` says about each of them, and each line of standard error that the rules have."""
        pages = os.path.join(unpacked(self.path, self.folder), "usr/share/man/man1")
        with gzip.open(os.path.join(pages, "stockdesk.1.gz"), "rt", encoding="utf-8") as file:
            page = file.read().replace("\\-", "-")
        for command in "init run orders deliveries bounds sheet article serve upgrade roll".split():
            told = run([self.program, command, "--help"])
            first = (told.stdout + told.stderr).splitlines()[0]
            expect(first in page, f"nothing is said of {command}: {first}")
        for tool in TOOLS:
            expect(f"usage: {tool}" in page, f"nothing is said of {tool}")
            expect(os.path.exists(os.path.join(pages, f"{tool}.1.gz")), f"no page of {tool}")
        for line in ["not a desk", "old version", "damaged", "store", "memory", "io", "usage", "record N", "csv"]:
            expect(f"stockdesk: {line}" in page, f"nothing is said of {line}")
        expect(" where the store failed, for example " in page, "no sentence says when the status is 1")

    def test_the_documents_lead_to_what_is_there(self):
        """This holds in the package, which has no sources."""
        tree = unpacked(self.path, self.folder)
        documents = glob.glob(os.path.join(tree, "usr/share/doc/stockdesk/**/*.md"), recursive=True)
        links = [(document, *link) for document in documents for link in links_of(document)]
        expect(len(documents) > 10 and len(links) > 50, f"{len(documents)} documents, {len(links)} links")
        for document, text, path, heading in links:
            expect(os.path.exists(path), f"{document}: {text} leads to no file")
            expect(not heading or heading in headings_of(path), f"{document}: {text} leads to no heading")

    @needs("mmdebstrap", "chroot")
    @unittest.skipIf(os.geteuid() != 0, "only root can make a Debian")
    def test_it_is_built_anywhere_to_the_same_bytes(self):
        """In a fresh Debian of each suite the package is built, with what it says that it is built by, as another user, and
        again. There lintian finds nothing in it, and it takes the place of one that was built here."""
        sources = os.path.join(self.folder, "sources")
        put_sources(sources, self.program)
        hooks = [f"copy-in {sources} /", 'chroot "$1" sh -c "cd /sources && apt-get build-dep --yes --no-install-recommends ."']
        options = ["--include=lintian,nftables,systemd", *[f"--customize-hook={hook}" for hook in hooks]]
        for suite in SUITES:
            root = os.path.join(self.folder, suite)
            with self.subTest(suite=suite), fresh_debian(suite, root, *options) as inside:
                inside("mkdir /one /two && /sources/deploy/package /one")
                inside("umask 077; cd /two && LANG=C.UTF-8 TZ=Asia/Tokyo /sources/deploy/package")
                inside("cmp /one/stockdesk_*_amd64.deb /two/stockdesk_*_amd64.deb")
                expect((found := inside(f"{shlex.join(LINTIAN)} /one/*.deb")) == "", f"lintian: {found}")
                [path] = glob.glob(os.path.join(root, "one/*.deb"))
                note(f"as here on {suite}: {bytes_of(path) == bytes_of(self.path)}")
                shutil.copy(self.path, os.path.join(root, "here.deb"))
                for package in ["/here.deb", "/one/*.deb"]:
                    inside(f"dpkg --install {package}")
                    expect(units_in(root) == NAMES, f"{suite}, {package}: the units are {units_in(root)}")

    @needs("mmdebstrap", "chroot")
    @unittest.skipIf(os.geteuid() != 0, "only root can make a Debian")
    def test_a_package_comes_and_goes(self):
        """On a fresh Debian of each suite the package is installed, upgraded, removed and purged: in between the program runs,
        systemd is asked for what each step wants, and what is the shop's stays as it was: desks and copies, which are their
        owner's alone, and settings."""
        later = newer(self.path, self.folder)
        for suite in SUITES:
            root = os.path.join(self.folder, suite)
            with self.subTest(suite=suite), fresh_debian(suite, root, "--include=nftables,python3,systemd") as inside:
                for package, name in [(self.path, "first.deb"), (later, "later.deb")]:
                    shutil.copy(package, os.path.join(root, name))
                put_systemctl(root)
                inside("dpkg --install /first.deb")
                expect(inside(OWNED) == OWNERS, f"other owners or modes: {inside(OWNED)}")
                expect(inside("getent passwd stockdesk").endswith(":/var/lib/stockdesk:/usr/sbin/nologin\n"), "another user")
                expect_asked(root, [RELOAD])
                fill(inside)
                desks = [path for path, _, mode, _ in kept_in(root) if path.endswith(".db") and stat.S_IMODE(mode) == 0o600]
                expect(len(desks) == 2, f"not a desk and a copy that are their owner's alone: {desks}")
                expect_kept(inside, root)
                told = inside(f"printf '? field N1 A-1\n' | runuser -u stockdesk -- stockdesk run {DESK}")
                expect(told == "? field N1 A-1 lo 0 hi 100 value 40 inf 40 sup 40\n", f"another desk: {told}")
                expect("usage: stockdesk-backup" in inside("stockdesk-backup --help"), "no tool")


def unpacked(path: str, folder: str) -> str:
    """The folder in which the files of a package lie."""
    tree = os.path.join(folder, "tree")
    run(["dpkg-deb", "--extract", path, tree], check=True)
    return tree


# ---- on a fresh Debian


DESK = "/var/lib/stockdesk/shop/desk.db"
NAMES = [os.path.basename(unit) for unit in UNITS]

OWNED = "stat -c '%n %U %G %a' /etc/stockdesk /var/backups/stockdesk /var/lib/stockdesk"
OWNERS = """/etc/stockdesk root root 755
/var/backups/stockdesk stockdesk stockdesk 700
/var/lib/stockdesk stockdesk stockdesk 700
"""

# what is asked of systemd
RELOAD = "--system daemon-reload"
TIMERS = "stockdesk-between.timer stockdesk-certificate.timer"
RESTART = "try-restart stockdesk@*.service stockdesk-replica@*.service"
STOP = "stop stockdesk*.timer stockdesk@*.service stockdesk-replica@*.service"


def put_systemctl(root: str) -> None:
    """Puts in place of systemctl, in a Debian that has not been started, a program that notes what it is asked for."""
    os.makedirs(os.path.join(root, "run/systemd/system"))
    path = os.path.join(root, "usr/local/bin/systemctl")
    with open(path, "w", encoding="ascii") as file:
        file.write('#!/bin/sh\necho "$*" >>/asked\n')
    os.chmod(path, 0o755)


def expect_asked(root: str, want: list[str]) -> None:
    """That was asked of systemd since the last such look."""
    path = os.path.join(root, "asked")
    asked = text_of(path).splitlines() if os.path.exists(path) else []
    expect(asked == want, f"{asked} was asked, and not {want}")
    with open(path, "w", encoding="ascii"):
        pass


def fill(inside: Inside) -> None:
    """Makes a desk with a field, a copy and the settings, as the guide does."""
    inside("install -d -o stockdesk -g stockdesk -m 0700 /var/lib/stockdesk/shop /var/backups/stockdesk/shop")
    inside(f"install -o stockdesk -g stockdesk -m 0600 /dev/null {DESK}")
    inside(f"runuser -u stockdesk -- stockdesk init {DESK}")
    inside("echo PORT=8080 >/etc/stockdesk/shop.conf")
    told = inside(f"printf 'F1 field N1 A-1 0 100 40\n' | runuser -u stockdesk -- stockdesk run {DESK}")
    expect(told == "F1 done 1\n", f"another reply: {told}")
    inside(f"runuser -u stockdesk -- stockdesk-restore {DESK} /var/backups/stockdesk/shop/copy.db")


def expect_kept(inside: Inside, root: str) -> None:
    """What is the shop's stays as it is while the package is upgraded, removed, purged and installed again."""
    kept = kept_in(root)
    steps: list[tuple[str, list[str]]] = [
        ("dpkg --install /later.deb", [RELOAD, f"try-restart {TIMERS}", RESTART]),
        ("dpkg --remove stockdesk", [STOP, RELOAD]),
        ("dpkg --purge stockdesk", []),
        ("dpkg --install /first.deb", [RELOAD]),
    ]
    for line, calls in steps:
        inside(line)
        is_installed = "install" in line
        expect_asked(root, calls)
        expect(kept_in(root) == kept, f"{line}: what is a shop's was touched")
        expect(os.path.exists(os.path.join(root, "usr/bin/stockdesk")) == is_installed, f"{line}: the program")
        expect(units_in(root) == (NAMES if is_installed else []), f"{line}: the units are {units_in(root)}")


def units_in(root: str) -> list[str]:
    """The units that lie where systemd looks for them; in both suites /lib is /usr/lib."""
    return sorted(glob.glob("stockdesk*", root_dir=os.path.join(root, "usr/lib/systemd/system")))


def kept_in(root: str) -> list[tuple[str, int, int, int]]:
    """Each file of the shop's, with its owner, mode and size."""
    found = []
    for folder in ["etc/stockdesk", "var/backups/stockdesk", "var/lib/stockdesk"]:
        for path in sorted(glob.glob(os.path.join(root, folder, "**"), recursive=True)):
            seen = os.lstat(path)
            found.append((path, seen.st_uid, seen.st_mode, seen.st_size))
    return found


# ---- the units


def calls_of(group: str) -> set[str]:
    """The system calls of a group of systemd's, with those of groups in it."""
    lines = run(["systemd-analyze", "syscall-filter", group]).stdout.splitlines()[1:]
    names = {line.strip() for line in lines if line.strip() and not line.strip().startswith("#")}
    return {name for name in names if name[0] != "@"}.union(*(calls_of(name) for name in names if name[0] == "@"))


def calls_in(words: str) -> set[str]:
    return set().union(*(calls_of(word) if word[0] == "@" else {word} for word in words.split()))


def allowed_calls(unit: str) -> set[str]:
    """What the unit's filters let pass. Each filter adds to those before it or, behind `~`, takes from them."""
    found = {"execve"}
    for words in settings_of(unit, "SystemCallFilter"):
        found = found - calls_in(words[1:]) if words[0] == "~" else found | calls_in(words)
    # as root alone Python's SQLite gives a file its owner; the program does so as any user
    as_root = {"fchown"} if unit == "stockdesk-check@.service" and os.geteuid() == 0 else set()
    return found | as_root


def traced(folder: str, program: str, option: str = "") -> tuple[str, str]:
    """What runs a program under strace, and the file with the calls of the program and of those that it begins."""
    wrapper, log = os.path.join(folder, "traced"), os.path.join(folder, "calls")
    with open(wrapper, "w", encoding="ascii") as file:
        file.write(f'#!/bin/sh\nexec strace {option} -f -o {log} {program} "$@"\n')
    os.chmod(wrapper, 0o755)
    return wrapper, log


def without_log(program: str, folder: str, path: str) -> None:
    """Makes a desk in a file beside which no log lies, as a copy is that was brought back."""
    done(program, ["init", os.path.join(folder, "copy.db")])
    told = run([RESTORE, os.path.join(folder, "copy.db"), path, "--program", program])
    expect(told.returncode == 0 and not os.path.exists(f"{path}-wal"), f"not restored without a log: {told}")


def expect_allowed(log: str, unit: str, some: str) -> None:
    """The unit lets these calls pass, one of that name among them, and none maps memory to write and to run."""
    with open(log, encoding="utf-8") as file:
        text = file.read()
    used = set(re.findall(r"^\d+ +(\w+)\(", text, re.MULTILINE))
    expect(some in used, f"nothing was traced: {used}")
    expect(used <= allowed_calls(unit), f"refused by {unit}: {used - allowed_calls(unit)}")
    expect(not re.search(r"PROT_WRITE\|PROT_EXEC|mprotect\(.*PROT_EXEC", text), "memory is to be written and run")


async def expect_served(machines: Machines) -> None:
    """The first machine keeps and shows a field."""
    place = (machines.address(1), PORT)
    await wait_until_well([place], UP_SECONDS)
    found = [await commanded(place, "K1", "field N1 A-1 0 100 40"), await asked(place, "/v1/keys/K1")]
    expect(found == [(200, '{"place":1}'), (200, '{"command":"field N1 A-1 0 100 40","place":1}')], f"{found}")


@needs("systemd-analyze")
class Units(ProgramCase):
    def test_the_units_are_sound(self):
        """systemd finds no fault but programs that are not installed here."""
        for unit in UNITS:
            shutil.copy(unit, self.folder)
        for unit in UNITS:
            # a unit of a template is looked at as one of its instances
            instance = os.path.join(self.folder, os.path.basename(unit).replace("@", "@shop"))
            told = run(
                ["systemd-analyze", "verify", "--man=no", instance], env={**os.environ, "SYSTEMD_UNIT_PATH": f"{self.folder}:"}
            )
            faults = [line for line in told.stderr.splitlines() if self.folder in line or "stockdesk" in line]
            others = [line for line in faults if "is not executable" not in line]
            expect(not others, f"{unit}: {others}")

    def test_no_unit_is_exposed(self):
        """Each service runs as the user stockdesk, and its exposure is small."""
        expect({os.path.basename(unit) for unit in UNITS if unit.endswith(".service")} == set(EXPOSED), f"{UNITS}")
        for name, most in EXPOSED.items():
            path = os.path.join(DEPLOY, name)
            told = run(["systemd-analyze", "security", "--offline=true", path])
            found = re.search(r"Overall exposure level for .*: ([0-9.]+)", told.stdout)
            expect(found and float(found[1]) < most, f"{name}: {told.stdout[-200:]}{told.stderr}")
            with open(path, encoding="utf-8") as file:
                kept = file.read().splitlines()
            expect(set(SHARED) <= set(kept), f"{name} lacks {set(SHARED) - set(kept)}")
            note(f"{name} {found[1]}")

    def test_a_desk_is_served_alone_or_as_one_of_several(self):
        """The desk's settings decide: a unit that is not meant is not started, and says why. So no desk that several machines
        hold acknowledges what the others lack."""
        for unit, settings, is_refused in [
            ("stockdesk@.service", {"PORT": "8080"}, False),
            ("stockdesk@.service", {"PORT": "8080", "LOG": ""}, False),
            ("stockdesk@.service", {"PORT": "8080", "MACHINE": "m1", "LOG": "shop/1"}, True),
            ("stockdesk-replica@.service", {"PORT": "8080"}, True),
            ("stockdesk-replica@.service", {"PORT": "8080", "MACHINE": "m1", "LOG": ""}, True),
            ("stockdesk-replica@.service", {"PORT": "8080", "MACHINE": "m1", "LOG": "shop/1"}, False),
        ]:
            [words] = settings_of(unit, "ExecCondition")
            expect(settings_of(unit, "EnvironmentFile") == ["/etc/stockdesk/%i.conf"], f"{unit} does not read the settings")
            told = run(shlex.split(words.replace("%i", "shop")), env=settings)
            expect(told.returncode == (1 if is_refused else 0), f"{unit}, {settings}: {told}")
            others = "stockdesk@shop" if "replica" in unit else "stockdesk-replica@shop"
            text = told.stderr
            expect((others in text and "LOG" in text) if is_refused else not text, f"{unit}, {settings}: {text}")

    def test_the_guide_switches_on_each_timer(self):
        """But for one: a desk that three machines hold does not roll by itself."""
        timers = {os.path.basename(unit).replace("@", "@shop") for unit in UNITS if unit.endswith("@.timer")}
        single = {"stockdesk-roll@shop.timer"}
        for guide, units in [
            ("OPERATING.md", {"stockdesk@shop", *timers}),
            ("REPLICAS.md", {"stockdesk-replica@shop", *timers - single}),
        ]:
            with open(os.path.join(TOP, "docs", guide), encoding="utf-8") as file:
                [words] = re.findall(r"^systemctl enable --now (stockdesk\S*@.*)$", file.read(), re.MULTILINE)
            expect(single <= timers and sorted(words.split()) == sorted(units), f"{guide}: {words}")

    @needs("strace")
    def test_the_service_needs_no_call_that_its_unit_refuses(self):
        """A service under strace serves and fills a desk without a log, and makes the log."""
        wrapper, log = traced(self.folder, self.program)
        path = os.path.join(self.folder, "desk.db")
        without_log(self.program, self.folder, path)
        service = Service(wrapper, path, 1, options=TOGETHER)
        connection = service.connect()
        post(connection, "K1", "field N1 A-1 0 100 40")
        connection.close()
        service.expect_end()
        expect_allowed(log, "stockdesk@.service", "accept4")

    @needs("strace")
    def test_the_carrier_needs_no_call_that_its_unit_refuses(self):
        """The carrier carries a deal between two desks, under strace."""
        with chain(self.program, self.folder) as desks:
            wrapper, log = traced(self.folder, CARRIER)
            told = run([wrapper, "900000001", *desks.urls(), "--move", "A-1", "7", "N0", "N1"])
            expect(told.returncode == 0, f"not moved: {told}")
            told = run([wrapper, "--resume-all", *desks.urls()])
            expect(told.returncode == 0, f"not looked at: {told}")
            expect_allowed(log, "stockdesk-between.service", "connect")

    @needs("strace")
    def test_the_tools_need_no_call_that_their_units_refuse(self):
        """The tools copy a desk that is served, and look how full it is, under strace."""
        path = os.path.join(self.folder, "desk.db")
        done(self.program, ["init", path])
        with alone(self.program, path) as service:
            wrapper, log = traced(self.folder, BACKUP)
            told = run([wrapper, str(service.process.pid), path, self.folder, "--program", self.program])
            expect(told.returncode == 0, f"no copy: {told}")
            expect_allowed(log, "stockdesk-backup@.service", "pidfd_send_signal")
            wrapper, log = traced(self.folder, ROLLOVER)
            told = run([wrapper, "--check", path])
            expect(told.returncode == 0, f"not looked at: {told}")
            expect_allowed(log, "stockdesk-check@.service", "openat")

    @needs("strace")
    def test_a_desk_is_rolled_up_by_no_call_that_its_unit_refuses(self):
        """The program was killed, so the desk's log has pages; then the desk is looked at and rolled up, under strace."""
        path = os.path.join(self.folder, "desk.db")
        done(self.program, ["init", path])
        play_and_kill(self.program, path, "F1 field N1 A-1 0 100 40\n")
        wrapper, log = traced(self.folder, ROLLOVER)
        for words in [["--from", "100000"], []]:
            told = run([wrapper, *words, path, "--program", self.program])
            expect(told.returncode == 0, f"not rolled up: {told}")
            expect_allowed(log, "stockdesk@.service", "link" if not words else "openat")

    @needs("strace")
    def test_the_tools_that_ask_a_desk_need_no_call_that_their_units_refuse(self):
        """The tools look how full a desk is, and whether it wants a roll, and end what is due; they use no socket but of
        AF_INET."""
        path = os.path.join(self.folder, "desk.db")
        done(self.program, ["init", path])
        done(self.program, ["run", path], "F1 field N1 A-1 0 100 40\nO1 open 1 1 take N1 A-1 1\n")
        service = Service(self.program, path, 3, options=TOGETHER)
        place = os.path.join(self.folder, "clock")
        os.mkdir(place)
        for unit, tool, words, told_of in [
            ("stockdesk-check@.service", ROLLOVER, ["--check", path, "--port", str(service.port)], "orders: 1 of"),
            (
                "stockdesk-roll@.service",
                ROLLOVER,
                ["--wants", path, "--port", str(service.port), "--from", "2", "--keys", "1"],
                "a roll is wanted: 2 places",
            ),
            (
                "stockdesk-clock@.service",
                CLOCK,
                [str(service.port), "--seen", os.path.join(place, "seen"), "--jump"],
                "): 1; `expire ",
            ),
        ]:
            wrapper, log = traced(self.folder, tool)
            told = run([wrapper, *words])
            expect((told.returncode, told.stderr) == (0, "") and told_of in told.stdout, f"{told}")
            expect_allowed(log, unit, "connect")
            with open(log, encoding="utf-8") as file:
                families = set(re.findall(r"socket\((\w+),", file.read()))
            expect(families == {"AF_INET"}, f"{families}")
        service.expect_end()

    @needs("strace", "etcd", "etcdctl", "openssl")
    def test_a_machine_of_three_needs_no_call_that_its_unit_refuses(self):
        """A machine under strace, whose desk makes its log, takes a command and shows a field."""
        lacking = [name for name in ["aiohttp", "etcd3", "grpc", "uvloop"] if importlib.util.find_spec(name) is None]
        if lacking:
            self.skipTest(f"{', '.join(lacking)} of Python not here")
        # the machine is the process that is begun, so it can be ended
        wrapper, log = traced(self.folder, f"/usr/bin/python3 {REPLICA}", "-D")
        machines = Machines(self.program, self.folder, has_fronts=False)
        try:
            machines.make()
            shutil.rmtree(os.path.dirname(machines.desk(1)))
            os.makedirs(os.path.dirname(machines.desk(1)))
            without_log(self.program, self.folder, machines.desk(1))
            for machine in MACHINES:
                machines.start("etcd", machine)
            machines.interpreter, machines.replica = [], wrapper
            machines.start("replica", 1)
            asyncio.run(expect_served(machines))
        finally:
            machines.down()
        expect_allowed(log, "stockdesk-replica@.service", "prctl")
