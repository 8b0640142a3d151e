"""Where the machines of a test are: in network namespaces on a bridge of their own, with ways that can be cut; or else on
addresses of the loopback, whose ways cannot."""

import os
import subprocess
from collections.abc import Sequence

from support.cases import path_of

MACHINES = (1, 2, 3)
SECONDS = 30
TABLE = "table inet cut { chain in { type filter hook input priority 0; }; chain out { type filter hook output priority 0; }; }"


class Failed(Exception):
    """A command that did not end well, and what it wrote."""


def run(*words: str, seconds: float = SECONDS) -> str:
    try:
        ran = subprocess.run(words, capture_output=True, text=True, timeout=seconds)
    except subprocess.TimeoutExpired as late:
        raise Failed(f"{words}: nothing in {seconds} s") from late
    if ran.returncode:
        raise Failed(f"{words}: {ran.stderr.strip() or ran.stdout.strip()}")
    return ran.stdout


class Loopback:
    """Each machine has an address of its own, and all are on this one."""

    can_cut = False

    def __init__(self) -> None:
        self.net = f"127.{1 + os.getpid() % 250}.{os.getpid() // 250 % 250}"
        self.local = ""

    def address(self, machine: int) -> str:
        return f"{self.net}.{machine}"

    def etcd_address(self, machine: int) -> str:
        return self.address(machine)

    def inside(self, machine: int) -> list[str]:
        """The words that run a command on a machine."""
        return []

    def up(self) -> None:
        pass

    def down(self) -> None:
        pass

    def cut(self, machine: int, others: Sequence[str], ways: Sequence[str] = ("in", "out"), share: int = 100) -> None:
        raise Failed("nothing is cut on the loopback")

    def heal(self) -> None:
        pass


class Spaces(Loopback):
    """Each machine has a network namespace; clients are outside of all of them."""

    can_cut = True

    def __init__(self) -> None:
        self.name = f"sd{os.getpid() % 100_000}"
        self.net = f"10.{64 + os.getpid() % 64}.{os.getpid() // 64 % 256}"

    def space(self, machine: int) -> str:
        return f"{self.name}-{machine}"

    def clients(self) -> str:
        return self.address(254)

    def etcd_address(self, machine: int) -> str:
        return "127.0.0.1"

    def inside(self, machine: int) -> list[str]:
        return ["ip", "netns", "exec", self.space(machine)]

    def up(self) -> None:
        run("ip", "link", "add", self.name, "type", "bridge")
        run("ip", "addr", "add", f"{self.clients()}/24", "dev", self.name)
        run("ip", "link", "set", self.name, "up")
        for machine in MACHINES:
            self.add(machine, self.space(machine))

    def add(self, machine: int, space: str) -> None:
        run("ip", "netns", "add", space)
        run(*f"ip link add {self.name}v{machine} type veth peer name eth0 netns {space}".split())
        run(*f"ip link set {self.name}v{machine} master {self.name} up".split())
        run(*f"ip -n {space} addr add {self.address(machine)}/24 dev eth0".split())
        for device in ["eth0", "lo"]:
            run(*f"ip -n {space} link set {device} up".split())
        run(*self.inside(machine), "nft", TABLE)

    def down(self) -> None:
        """Removes what there is of it."""
        words = [f"ip netns del {self.space(machine)}" for machine in MACHINES]
        words += [f"ip link del {self.name}v{machine}" for machine in MACHINES]
        for line in [*words, f"ip link del {self.name}"]:
            subprocess.run(line.split(), capture_output=True)

    def cut(self, machine: int, others: Sequence[str], ways: Sequence[str] = ("in", "out"), share: int = 100) -> None:
        """Loses `share` percent of what comes to the machine from those addresses, of what goes to them, or of both."""
        rules = [f"add rule inet cut {way} ip {'saddr' if way == 'in' else 'daddr'} {other}" for way in ways for other in others]
        chance = "" if share == 100 else f" numgen random mod 100 < {share}"
        run(*self.inside(machine), "nft", "; ".join(f"{rule}{chance} drop" for rule in rules))

    def heal(self) -> None:
        for machine in MACHINES:
            run(*self.inside(machine), "nft", "flush chain inet cut in; flush chain inet cut out")


def made_network() -> Loopback:
    """Network namespaces where they can be made, else the loopback."""
    if os.geteuid() == 0 and path_of("ip") and path_of("nft"):
        spaces = Spaces()
        try:
            spaces.up()
            spaces.cut(1, [spaces.address(2)], share=50)
            spaces.heal()
            return spaces
        except Failed:
            spaces.down()
    return Loopback()
