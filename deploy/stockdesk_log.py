"""The log of a desk that several machines hold: the values that one key of etcd takes, one after the other. Each value is an
entry. An entry is a head line and, behind `lines`, the commands, each as a line KEY COMMAND:

    lines RUN NUMBER BASE    RUN and NUMBER name the entry; BASE is the revision that its machine had come to, up to which none of
                             the lines was late
    begin PLACES DIGEST      the first entry of a log that begins with a certain desk: the desk has so many places, and what is
                             kept at them has that digest; the digest of nothing is an empty word
    mark BASE                a command behind it that was asked for before it does not count; BASE is the mark before
    roll BASE KEYS           a mark, too; where more than so many places are taken there, each machine rolls its own desk up, and
                             the last so many keys stay
    end                      nothing behind it counts: the program changed, or another log follows

Any other value is no entry, and all machines pass over it."""

import asyncio
import contextlib
import re
from collections.abc import AsyncIterator, Sequence
from typing import Any, NamedTuple

import grpc
from etcd3.etcdrpc import kv_pb2, rpc_pb2, rpc_pb2_grpc
from stockdesk_tools import Fault, say

# how long one call of etcd may take, and how long to wait before the next call behind one that failed, in seconds
CALL_SECONDS, AGAIN_SECONDS = 1, 0.1

OPTIONS = [
    ("grpc.max_receive_message_length", -1),
    ("grpc.initial_reconnect_backoff_ms", 100),
    ("grpc.max_reconnect_backoff_ms", 500),
]

NUMBER, DIGEST = rb"([0-9]+)", rb"([0-9a-f]*)"
# the words behind the first one, for each first word
HEADS = {
    b"lines": re.compile(rb" ".join([rb"([0-9a-f]+)", NUMBER, NUMBER])),
    b"mark": re.compile(NUMBER),
    b"roll": re.compile(rb" ".join([NUMBER, rb"(0*[1-9][0-9]*)"])),
    b"begin": re.compile(rb" ".join([NUMBER, DIGEST])),
    b"end": re.compile(rb""),
}


class Entry(NamedTuple):
    """An entry of the log, or another value, at its revision."""

    revision: int
    value: bytes


class Lines(NamedTuple):
    run: bytes
    number: int
    base: int
    lines: list[bytes]


class Mark(NamedTuple):
    """A mark; where it is a roll, so many keys stay."""

    base: int
    keys: int | None = None


class Begin(NamedTuple):
    places: int
    digest: str


class End(NamedTuple):
    pass


class ToldMark(NamedTuple):
    """Where a machine's desk stood at a mark: how many places it had, and the digest of what is kept at them; and the same behind
    the mark, where the desk is rolled up there. A desk that is rolled up has a place."""

    revision: int
    machine: str
    place: int
    digest: str
    rolled_place: int = 0
    rolled_digest: str = ""

    def value(self) -> bytes:
        """Two words in either case, as machines of before rolls read them, which then find that they differ."""
        behind = f",{self.rolled_place},{self.rolled_digest}" if self.rolled_place else ""
        return f"{self.place} {self.digest}{behind}".encode()


def value_of(run: bytes, number: int, base: int, lines: Sequence[bytes]) -> bytes:
    return b"\n".join([b"lines %s %d %d" % (run, number, base), *lines])


def read_value(value: bytes) -> Lines | Mark | Begin | End | None:
    """What a value says, or None where it is no entry."""
    first, *lines = value.split(b"\n")
    kind, space, rest = first.partition(b" ")
    head = HEADS[kind].fullmatch(rest) if kind in HEADS else None
    if head is None or bool(rest) != bool(space) or (lines and kind != b"lines"):
        return None
    if kind == b"lines":
        return Lines(head[1], int(head[2]), int(head[3]), lines)
    if kind == b"begin":
        return Begin(int(head[1]), head[2].decode())
    return End() if kind == b"end" else Mark(*map(int, head.groups()))


def mark_of(key: bytes, value: bytes) -> ToldMark:
    """What a machine has told at a mark, by the key and the value of that."""
    revision, machine = key.decode().split("/")[-2:]
    place, digests = value.decode().split(" ")
    digest, rolled_place, rolled_digest = [*digests.split(","), "0", ""][:3]
    return ToldMark(int(revision), machine, int(place), digest, int(rolled_place), rolled_digest)


class Log:
    """The log, through the member of etcd on this machine."""

    def __init__(self, address: str, name: str):
        self.name = name.encode()
        channel = grpc.aio.insecure_channel(address, OPTIONS)
        self.store, self.watcher = rpc_pb2_grpc.KVStub(channel), rpc_pb2_grpc.WatchStub(channel)
        self.cluster = rpc_pb2_grpc.ClusterStub(channel)
        self.is_well = True

    async def try_call(self, call: Any, request: Any) -> Any:
        """What a call gives, or None: then it may be done or not, now or later."""
        try:
            found = await call(request, timeout=CALL_SECONDS)
            self.is_well = True
            return found
        except grpc.aio.AioRpcError as fault:
            if self.is_well:
                say(f"etcd: {fault.code().name}: {fault.details()}")
            self.is_well = False
            await asyncio.sleep(AGAIN_SECONDS)
            return None

    async def member(self) -> str:
        """The name of the member of etcd on this machine. It is asked for until there is an answer."""
        while True:
            found = await self.try_call(self.cluster.MemberList, rpc_pb2.MemberListRequest())
            names = [str(each.name) for each in found.members if each.ID == found.header.member_id] if found else []
            # a member that has not joined yet has no name
            if any(names):
                return names[0]
            await asyncio.sleep(AGAIN_SECONDS)

    async def put(self, value: bytes, key: str = "log") -> int | None:
        """The revision at which it is kept; None where that is not known."""
        request = rpc_pb2.PutRequest(key=self.name + b"/" + key.encode(), value=value)
        done = await self.try_call(self.store.Put, request)
        return int(done.header.revision) if done else None

    async def head(self) -> int | None:
        """The revision of the last entry of all, as a majority knows it; None where there is no majority."""
        found = await self.try_call(self.store.Range, rpc_pb2.RangeRequest(key=self.name + b"/log", keys_only=True))
        return max((int(pair.mod_revision) for pair in found.kvs), default=0) if found else None

    async def first(self) -> int:
        """The revision of the first entry, or one before which none is where there is none yet. It is asked for until there is an
        answer."""
        while not (found := await self.try_call(self.store.Range, rpc_pb2.RangeRequest(key=self.name + b"/log", keys_only=True))):
            pass
        return int(found.kvs[0].create_revision if found.kvs else found.header.revision + 1)

    async def marks(self) -> list[ToldMark]:
        """What machines have told at marks. It is asked for until there is an answer."""
        prefix = self.name + b"/marks/"
        request = rpc_pb2.RangeRequest(key=prefix, range_end=prefix[:-1] + b"0")
        while not (found := await self.try_call(self.store.Range, request)):
            pass
        return [mark_of(pair.key, pair.value) for pair in found.kvs]

    async def tell_mark(self, mark: ToldMark) -> None:
        """It is told until etcd has it."""
        while not await self.put(mark.value(), f"marks/{mark.revision:020}/{mark.machine}"):
            pass

    async def follow(self, first: int) -> AsyncIterator[Entry]:
        """All entries from that revision on, as they come. Fault: they are no longer all there."""
        while True:
            with contextlib.suppress(grpc.aio.AioRpcError):
                async for told in await self.watch(first):
                    for entry in entries_of(told, first):
                        yield entry
                        first = entry.revision + 1
                    if told.canceled:
                        break
            await asyncio.sleep(AGAIN_SECONDS)

    async def watch(self, first: int) -> Any:
        create = rpc_pb2.WatchCreateRequest(key=self.name + b"/log", start_revision=first)
        call = self.watcher.Watch()
        await call.write(rpc_pb2.WatchRequest(create_request=create))
        return call


def entries_of(told: Any, first: int) -> list[Entry]:
    """The entries in an answer of etcd to one who has all before that revision."""
    if told.compact_revision:
        raise Fault(f"the log begins at {told.compact_revision} and is wanted from {first}: start from a newer copy")
    if any(event.type != kv_pb2.Event.PUT or event.kv.mod_revision < first for event in told.events):
        raise Fault("etcd tells what is no next entry of the log")
    return [Entry(event.kv.mod_revision, event.kv.value) for event in told.events]
