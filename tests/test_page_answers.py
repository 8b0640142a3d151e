"""Tests of what the page says: each refusal in plain words, what the front itself answers, and answers that are lost on the way,
after which the page asks again for the same command under the same key."""

import json

from support.browser import FOREVER, WORDS, Page, PageCase, row, tell_all, without
from support.forms import REFUSALS
from support.programs import expect

# the desk for the refusals, and commands that it refuses, each with the line at fault where the answer has one
MANY = " ".join(f"take R1 C-{n} 1" for n in range(64))
BEFORE_REFUSALS = [
    *[f"field R1 {article} 0 100 50" for article in ["A", "B", "D", *[f"C-{n}" for n in range(64)]]],
    "field R2 A 0 100 50",
    f"open 9001 {FOREVER} take R1 A 10",
    f"open 9002 {FOREVER} take R1 A 1",
    "commit 9002",
    f"open 9003 {FOREVER} take R1 A 1",
    "firm 9003",
    f"transfer 9004 {FOREVER} A R1 R2 1",
    f"open 9005 {FOREVER} {MANY}",
]
REFUSED = [
    ("FieldThere", "field R1 A 0 100 50", ""),
    ("NoField", "deliver R1 X 1", ""),
    ("NoField", f"open 9010 {FOREVER} take R1 A 1 take R1 X 2", "line 2 (take 2 of X at R1)"),
    ("NoField", f"transfer 9010 {FOREVER} A R1 R3 1", "line 2 (add 1 of A at R3)"),
    ("BadBounds", "field R1 NEW 9 1 5", ""),
    ("BadBounds", "rebound R1 A 9 1", ""),
    ("OrderThere", f"open 9001 {FOREVER} take R1 A 1", ""),
    ("NoOrder", "commit 899999999", ""),
    ("Ended", "abort 9002", ""),
    ("Past", "open 9010 1 take R1 A 1", ""),
    ("SameField", f"open 9010 {FOREVER} take R1 A 1 add R1 A 1", "line 2 (add 1 of A at R1)"),
    ("OtherWay", "more 9001 add R1 A 1", ""),
    ("TooManyLines", "more 9005 take R1 D 1", ""),
    ("TooLittle", "writeoff R1 A 100", ""),
    ("TooLittle", f"transfer 9010 {FOREVER} A R1 R2 99", "line 1 (take 99 of A at R1)"),
    ("TooMuch", "deliver R1 A 100", ""),
    ("TooMuch", f"open 9010 {FOREVER} take R1 A 1 add R1 B 51", "line 2 (add 51 of B at R1)"),
    ("NotHeld", "use 9001 R1 B 1", ""),
    ("OverUse", "use 9001 R1 A 11", ""),
    ("OverUse", "release 9001 R1 A 11", ""),
    ("TransferFixed", "more 9004 take R1 B 1", ""),
    ("ClockBack", "expire 0", ""),
    ("Firm", "abort 9003", ""),
    ("BadCommand", "commit 07", ""),
]

# what the front itself answers, and the words for it; then what it answers while nothing is decided
HELD_BACK = [(400, "could not read"), (401, "not signed in"), (403, "group may not"), (413, "too long")]
NOTHING_YET = [(429, ""), (502, "<h1>502</h1>"), (503, '{"error":"stopped"}'), (504, ""), (200, "<h1>hello</h1>"), (500, "")]


class PageAnswers(PageCase):
    def test_refusals_are_told_in_plain_words(self):
        """The page says all that a desk answers to commands, each with its line; two of the answers, which no command can meet
        here, are made up."""
        tell_all(self.front, BEFORE_REFUSALS)
        self.front.tell("ho", "expire 1")
        names = REFUSALS[1:]
        with Page(self.front, "ho") as page:
            told = page.run("return import('/words.js').then(({ REFUSALS }) => Object.entries(REFUSALS))")
            expect([name for name, _ in told] == names, "the page knows other refusals")
            for name, words in told:
                expect(WORDS[name] in words and name not in words, f"{name} is told as {words!r}")
            page.run("crypto.randomUUID = () => 'page-9'")
            page.tell("#own-line", own="deliver R2 A 1")
            page.tell("#own-line", WORDS["KeyReused"], own="deliver R2 A 2")
            page.run("delete crypto.randomUUID")
            for name, command, line in REFUSED:
                page.tell("#own-line", WORDS[name], own=command)
                said = page.text("#said")
                expect(said.startswith(f"Refused, {line}: " if line else "Refused: "), f"{command}: {said!r}")
                expect(said.endswith(f"({names.index(name) + 1} {name})"), f"{command}: {said!r}")
            full = {"code": 2, "line": 0, "refused": "Full"}
            page.run("answers.push([409, arguments[0]])", json.dumps(full))
            page.tell("#own-line", WORDS["Full"], own="deliver R2 A 1")
            met = {name for name, *_ in REFUSED} | {"KeyReused", "Full"}
            expect(met == set(names), f"not met: {set(names) - met}")

    def test_what_the_front_says_is_told(self):
        """What the front holds back is not done, unless an answer was lost before; and where nothing is decided, the page asks
        again."""
        tell_all(self.front, ["field H1 A 0 100 0"])
        deliver = dict(branch="H1", article="A", quantity=1)
        with Page(self.front, "w1") as page:
            for status, words in HELD_BACK:
                page.run("answers.push([arguments[0], ''])", status)
                page.tell("#deliver", words, **deliver)
                expect(page.text("#said").startswith("Not done: "), f"{status}: {page.text('#said')!r}")
            page.run("answers.push([503, ''], [403, ''])")
            page.tell("#deliver", "may be done or not", **deliver)
            expect("group may not" in page.text("#said"), f"{page.text('#said')!r}")
            page.press("#again")
            page.wait_said("Done")
            page.run("sent.length = 0; answers.push(...arguments[0])", NOTHING_YET)
            page.run("setTimeout = (real => (act, wait) => real(act, Math.min(wait, 100)))(setTimeout)")
            page.tell("#deliver", **deliver)
            sent = page.sent()
            expect(len(sent) == len(NOTHING_YET) + 1, f"asked {len(sent)} times")
            expect(all(each == sent[0] for each in sent), "asked with another key or command")
            page.show("stock", "H1")
            page.wait_rows("stock", {"A": row(0, 100, 2, 2, 2)})

    def test_a_lost_answer_is_asked_for_again(self):
        """A delivery that is done and not answered, and one while the front is away, are each counted once."""
        tell_all(self.front, ["field L1 A 0 100 0"])
        with Page(self.front, "w1") as page:
            page.show("stock", "L1")
            page.run("lose = 2")
            page.tell("#deliver", article="A", quantity=10)
            expect(len(page.sent()) == 3, f"asked {len(page.sent())} times")
            page.wait_rows("stock", {"A": row(0, 100, 10, 10, 10)})
            with without(self.front.stop, self.front.start):
                page.tell("#deliver", "No answer yet", article="A", quantity=5)
                page.wait(lambda: len(page.sent()) > 4, "it is not asked again")
                expect(page.find("#deliver .sends").get_attribute("aria-disabled") == "true", "another one may be sent")
                page.press("#deliver .sends")
                page.wait_told("One at a time")
            page.wait_said("Done")
            page.wait_rows("stock", {"A": row(0, 100, 15, 15, 15)})
            expect(len({sent["key"] for sent in page.sent()}) == 2, "a lost one was sent under another key")

    def test_a_reload_asks_again(self):
        """The desk has not answered a command when the page is loaded again: the page asks under its key, and it is done once."""
        tell_all(self.front, ["field L2 A 0 100 0"])
        with Page(self.front, "w1") as page:
            page.show("stock", "L2")
            with without(self.front.desk_kill, self.front.desk_start):
                page.send("#deliver", article="A", quantity=10)
                page.wait(lambda: page.text("#key"), "it is not sent")
                key = page.text("#key")
                page.browser.refresh()
                page.wait(lambda: page.text("#key") == key, "the key is forgotten")
                expect(page.text("#line") == "deliver L2 A 10", "the command is forgotten")
            page.wait_said("Done")
            page.wait_rows("stock", {"A": row(0, 100, 10, 10, 10)})
            page.browser.refresh()
            page.wait_rows("stock", {"A": row(0, 100, 10, 10, 10)})
            expect("No command was sent yet" in page.text("#said"), f"after its answer it is asked again: {page.text('#said')!r}")

    def test_who_asks_may_stop(self):
        """The command then stays in view, with its key, until the user asks again or lets it go; before that the page sends no
        other one."""
        tell_all(self.front, ["field L3 A 0 100 0"])
        with Page(self.front, "w1") as page:
            with without(self.front.stop, self.front.start):
                page.tell("#deliver", "No answer yet", branch="L3", article="A", quantity=10)
                key = page.text("#key")
                page.press("#stop")
                page.wait_said("may be done or not")
                expect(page.run("return document.activeElement.id") == "again", "the focus is lost")
                expect(page.text("#key") == key and page.find("#key").is_displayed(), "the key is not in view")
                asked = len(page.sent())
                page.press("#deliver .sends")
                page.wait_told("One at a time")
                expect(len(page.sent()) == asked and page.find("#again").is_displayed(), "another one is sent")
                page.press("#again")
                page.wait_said("No answer yet")
            page.wait_said("Done")
            expect({sent["key"] for sent in page.sent()} == {key}, "it was asked under another key")
            with without(self.front.stop, self.front.start):
                page.tell("#deliver", "No answer yet", branch="L3", article="A", quantity=20)
                page.press("#stop")
                page.press("#forget")
                page.wait_said("not known")
            page.tell("#deliver", branch="L3", article="A", quantity=1)
            page.show("stock", "L3")
            page.wait_rows("stock", {"A": row(0, 100, 11, 11, 11)})
