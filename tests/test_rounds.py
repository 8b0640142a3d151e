"""Tests of the built program that serves many connections at once, in rounds. What many clients are answered fits one order of
all that they asked, by the rules; many commands share a sync, and no question waits long behind those of others; and such a
service ends when it should."""

import random
import signal
import tempfile
import time
from collections.abc import Sequence
from dataclasses import dataclass

import test_scripts
import test_spelling
from support.asks import SOME_FIELDS, Ask, ask_of
from support.cases import ProgramCase
from support.chance import SEED, Chance, Seeded, Seen, needs_hypothesis, try_cases
from support.clients import Client, connected, play
from support.failing import NEVER, FailingCase, Failure
from support.inputs import together
from support.message_inputs import ask, some_known, talks_of
from support.one_order import desk_with, expect_one_order, rules_behind, told_order
from support.programs import expect, note
from support.rows import rows_by
from support.rules import Rules
from support.service import TOGETHER, Service, answered
from support.tables import rows_of, sqlite3

# how many clients there are at once, and about how many questions all of them ask
CROWDS = [1, 2, 3, 4, 5, 6, 8, 10, 12, 16, 20, 25, 30, 40, 50]
QUESTIONS = 1_200
SMALL_CROWDS = 30

# how many microseconds a slow sync takes
SLOW = 5_000
AT_ONCE = 1_000
FIELD = [("F", "field N1 A-1 0 1000000000 0")]


@dataclass
class Crowd:
    """What each client of a service asks, and how far it is ahead of its answers; how many questions are answered together; and
    the seed by which the streams are cut."""

    talks: list[list[Ask]]
    ahead: list[int]
    most: int
    seed: int

    def clients(self, port: int) -> list[Client]:
        """The clients of the crowd, who have asked nothing yet."""
        cuts = random.Random(self.seed)
        self.talks = [[ask.again() for ask in asks] for asks in self.talks]
        return [Client(port, asks, ahead, cuts) for asks, ahead in zip(self.talks, self.ahead, strict=True)]

    def __str__(self) -> str:
        talks = [[ask.line or repr(ask.text) for ask in asks] for asks in self.talks]
        lines = [line for number, asks in enumerate(talks, 1) for line in [f"# client {number}", *asks]]
        return "\n".join([f"# {self.most} together, {self.ahead} ahead", *lines])


def crowd_with(chance: Chance, clients: int) -> Crowd:
    """Clients that ask the greater number of questions."""
    known, count = some_known(), QUESTIONS // clients * clients
    return crowd_of(chance, talks_of(chance, [ask(chance, known) for _ in range(count)], clients))


def small_crowd(chance: Chance) -> Crowd:
    """Each client asks something."""
    known, clients = some_known(), chance.one_of([1, 2, 2, 3, 5, 8])
    asks = [ask(chance, known), *chance.several(lambda chance: ask(chance, known), 40, 120)]
    return crowd_of(chance, talks_of(chance, asks, min(clients, len(asks))))


def crowd_of(chance: Chance, talks: list[list[Ask]]) -> Crowd:
    return Crowd(talks, [chance.one_of([1, 4, QUESTIONS]) for _ in talks], together(chance), chance.whole(0, 9_999))


def deliveries(name: str, count: int) -> list[Ask]:
    return [ask_of(f"{name}-{number} deliver N1 A-1 1") for number in range(count)]


class ByTheRules(ProgramCase):
    def test_the_rules_in_python_answer_as_the_scripts_say(self):
        """The rules answer as the rows of other tests say, which were written by hand."""
        tables = [value for file in (test_scripts, test_spelling) for value in vars(file).values()]
        scripts = [rows for rows in tables if isinstance(rows, list) and rows and is_script(rows)]
        for rows in scripts:
            expect_by_the_rules(rows)
        note(f"{sum(map(len, scripts))} lines")

    def test_random_questions_of_many_fit_one_order(self):
        """The questions come in random pieces, some clients are far ahead of their answers, and up to some random number of
        questions are answered together."""
        found = [self.in_one_order(crowd_with(Seeded(SEED + number), clients)) for number, clients in enumerate(CROWDS)]
        note(f"{len(found)} crowds, {sum(found)} commands done")

    @needs_hypothesis
    def test_random_questions_of_some_fit_one_order(self):
        """The crowds are small, and a crowd that fails is made smaller."""
        seen = Seen("clients", "commands done", "services of one sync a command")

        def expect_in_one_order(crowd: Crowd) -> None:
            seen.add("clients", len(crowd.talks))
            seen.add("services of one sync a command", crowd.most == 1)
            seen.add("commands done", self.in_one_order(crowd))

        try_cases(small_crowd, SMALL_CROWDS, expect_in_one_order, str)
        seen.expect_all()
        note(str(seen))

    def in_one_order(self, crowd: Crowd) -> int:
        """How many commands are done, in one order that fits all answers."""
        with tempfile.TemporaryDirectory(dir=self.folder) as folder:
            path = desk_with(self.program, folder, SOME_FIELDS)
            service = Service(self.program, path, len(crowd.talks), options=["--together", str(crowd.most)])
            clients = crowd.clients(service.port)
            play(clients)
            service.expect_end()
            for client in clients:
                client.expect_whole()
            order = told_order(SOME_FIELDS, [ask for asks in crowd.talks for ask in asks])
            desk = expect_one_order(order, len(SOME_FIELDS), crowd.talks)
            expect(sqlite3 is None or rows_of(path) == rows_by(desk), f"{len(clients)} clients: other rows")
        return len(order) - len(SOME_FIELDS)


def is_script(rows: Sequence[object]) -> bool:
    """Whether these are lines, each with its reply."""
    return all(isinstance(row, tuple) and len(row) == 2 and all(isinstance(text, str) for text in row) for row in rows)


def expect_by_the_rules(rows: Sequence[tuple[str, str]]) -> None:
    rules = Rules()
    for line, want in rows:
        found = rules.reply(line)
        expect(found == want, f"{line}: {found} and not {want}")
        if found.endswith(f" done {len(rules.kept) + 1}"):
            rules.carry_out(*line.split(" ", 1))


class Syncs(FailingCase):
    """Services whose syncs are slow, and are counted."""

    def play(self, talks: list[list[Ask]], ahead: list[int], most: int, micros: int) -> tuple[float, int]:
        """In how many seconds these questions were answered, at most so many together, where each client is so far ahead of its
        answers; and how many syncs there were in all. The service stands still until all have asked."""
        path = desk_with(self.program, self.folder, FIELD, f"{most}.db")
        with self.failing.lane() as lane:
            environment = self.failing.environment(Failure("sync", NEVER), lane, micros)
            options = ["--together", str(most)]
            service = Service(self.program, path, len(talks), environment=environment, options=options)
            service.process.send_signal(signal.SIGSTOP)
            crowd = [Client(service.port, asks, most_ahead) for asks, most_ahead in zip(talks, ahead, strict=True)]
            for client in crowd:
                client.say()
            began = time.monotonic()
            service.process.send_signal(signal.SIGCONT)
            play(crowd)
            took = time.monotonic() - began
            service.expect_end()
            for client in crowd:
                client.expect_whole()
            return took, self.failing.counted(lane)

    def test_commands_that_come_at_once_share_syncs(self):
        """One client gets all answers in their order, and far sooner than one by one."""
        asks = deliveries("K", AT_ONCE)
        took, syncs = self.play([asks], [AT_ONCE], 1_000, SLOW)
        expect([ask.place() for ask in asks] == list(range(2, AT_ONCE + 2)), "not in their order")
        expect(syncs <= AT_ONCE // 10, f"{syncs} syncs")
        expect(took < AT_ONCE * SLOW / 2_000_000, f"{took:.1f} s")
        note(f"{AT_ONCE} commands in {took:.2f} s by {syncs} syncs of {SLOW / 1000} ms")

    def test_clients_that_wait_for_each_answer_share_syncs(self):
        talks = [deliveries(f"K{client}", 20) for client in range(64)]
        took, syncs = self.play(talks, [1] * len(talks), 1_000, SLOW)
        count = sum(map(len, talks))
        order = told_order(FIELD, [ask for asks in talks for ask in asks])
        expect_one_order(order, len(FIELD), talks)
        expect(syncs <= count // 4, f"{syncs} syncs")
        note(f"{count} commands of {len(talks)} clients in {took:.2f} s by {syncs} syncs")

    def test_no_more_share_a_sync_than_are_together(self):
        """Clients that ask much at once are answered in turn: when one has all answers, the others have most."""
        for most in [1, 10]:
            talks = [deliveries(f"K{client}", 100) for client in range(4)]
            _, syncs = self.play(talks, [100] * len(talks), most, 0)
            expect(syncs >= 400 // most, f"{most} together: {syncs} syncs")
            moment = min(asks[-1].told for asks in talks)
            found = [sum(ask.told <= moment for ask in asks) for asks in talks]
            expect(min(found) >= 50, f"{most} together: {found} are answered when the first has all")

    def test_nobody_waits_behind_all_that_another_asks(self):
        """One client asks very much at once, and another client one thing after the other: it is answered in its turn."""
        much, little = deliveries("K", 2_000), [ask_of("? field N1 A-1") for _ in range(10)]
        self.play([much, little], [len(much), 1], 8, SLOW)
        behind = sum(ask.told < little[-1].told for ask in much)
        expect(behind < len(much) // 2, f"{behind} of {len(much)} are answered first")
        note(f"{len(little)} answers beside {behind} of {len(much)}")


class Ends(ProgramCase):
    def test_a_service_ends_when_so_many_have_come_and_left(self):
        """While one of the clients is there, the service goes on, and lets no more in."""
        path = desk_with(self.program, self.folder, FIELD)
        service = Service(self.program, path, 3, options=TOGETHER)
        first, second, third = (connected(service.port) for _ in range(3))
        for connection in (first, second):
            connection.close()
        fourth = connected(service.port)
        view = ask_of("? field N1 A-1")
        for connection in (fourth, third):
            connection.sendall(view.text)
        third.settimeout(10)
        want = rules_behind(FIELD).answer(view.line)
        expect(third.recv(4_096) == want, "the third is not answered")
        fourth.settimeout(0.3)
        try:
            found = fourth.recv(4_096)
            expect(False, f"a fourth is answered: {found!r}")
        except TimeoutError:
            pass
        expect(service.process.poll() is None, "it ends before its last connection")
        third.close()
        service.expect_end()
        fourth.close()

    def test_the_least_and_the_greatest_numbers_are_taken(self):
        path = desk_with(self.program, self.folder, FIELD)
        view = ask_of("? field N1 A-1")
        for most, clients in [("1", "1"), ("1000", "4000"), ("1000", None)]:
            options = ["--together", most, *(["--clients", clients] if clients else [])]
            service = Service(self.program, path, 1, options=options)
            expect(answered(service.port, [view.text]) == rules_behind(FIELD).answer(view.line), f"{options}: another answer")
            service.expect_end()
