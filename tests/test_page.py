"""Tests of the page of the desk in Chromium, through a front that runs: what it shows against what the rules make of the
commands, orders by forms and buttons, what each group is offered, a keyboard alone, a phone's width, and colours. The tests have
branches of a letter and a digit, and orders from 8,000 on."""

import glob
import os
import re

from support.browser import FOREVER, NARROW, THUMB, WIDE, WORDS, Keys, Page, PageCase, local, row, tell_all, without
from support.forms import ARTICLE, BRANCH, LEVEL, QUANTITY
from support.fronts import PAGE
from support.programs import expect

# what each user is offered: forms, and the buttons and forms of an open order
OFFERED = {
    "n1": (["open", "transfer", "own-line"], ["commit", "abort", "use", "more"]),
    "w1": (["deliver", "writeoff", "own-line"], []),
    "ho": (
        ["open", "transfer", "deliver", "writeoff", "field", "rebound", "expire", "own-line"],
        ["commit", "abort", "firm", "use", "more"],
    ),
}
VERBS = {
    "n1": "open transfer more use release commit abort".split(),
    "w1": "deliver writeoff".split(),
    "ho": "open transfer more use release commit abort deliver writeoff firm field rebound expire".split(),
}

# numbers of orders that are of no deal between desks
OWN_ORDER = "[1-9][0-9]{0,7}|[1-8][0-9]{8}"

# the form of what an input takes, and texts about the edge of it
INPUTS = {
    "branch": (BRANCH, ["N1", "ABCDEFGH", "ABCDEFGHI", "n1", "N-1", "N 1"]),
    "to": (BRANCH, ["9", "ABCDEFGHI", "É"]),
    "article": (ARTICLE, ["A-1", "-A", "A" * 16, "A" * 17, "A_1", "0-", "a"]),
    "number": (OWN_ORDER, ["0", "1", "899999999", "900000000", "999999999", "1000000000", "-1"]),
    "quantity": (QUANTITY, ["0", "1", "1000000", "1000001"]),
    "lower": (LEVEL, ["0", "1000000000", "1000000001", "-1"]),
    "start": (LEVEL, ["0", "1000000000", "1000000001"]),
}

# a moment far from now
UNTIL = 50_000_000

# the inputs of a moment, and the minutes about the edge of what they take
MOMENTS = {
    "until": {-1: False, 0: True, FOREVER: True, FOREVER + 1: False},
    "now": {-1: False, 0: True, FOREVER - 1: True, FOREVER: False},
}

# texts and grounds, by the names of their colours, and by how much they have to differ
CONTRASTS = [
    *[(text, ground, 4.5) for text in ["text", "soft", "accent"] for ground in ["card", "ground"]],
    *[(text, "card", 4.5) for text in ["done", "refused", "waiting"]],
    ("accent", "tint", 4.5),
    ("on-accent", "accent", 4.5),
    *[(shape, "card", 3) for shape in ["edge", "span", "free"]],
]


def pictures(page):
    """What the pictures have drawn, in hundredths of the span from bound to bound: the free part, the outcomes, the value."""
    return page.run(
        """return [...document.querySelectorAll('#stock-table svg')].map(svg => {
      const numbers = (name, ...attributes) =>
        attributes.map(each => parseFloat(svg.querySelector(name).getAttribute(each)));
      return [...numbers('.free', 'x', 'width'), ...numbers('.span', 'x', 'width'), ...numbers('.value', 'x1')];
    })"""
    )


# a branch by its commands; its table and its pictures as the rules have them
SHOWN = [
    *["field S1 A-1 0 100 40", "field S1 ABCDEFGHIJ-12345 10 1000000000 999999990", "field S1 C 5 5 5", "field S1 D 20 120 70"],
    *[f"open 8001 {FOREVER} take S1 A-1 30 add S1 D 40", f"open 8002 {FOREVER} take S1 D 25", "use 8002 S1 D 5"],
    *["use 8001 S1 A-1 10", "firm 8001", "deliver S1 A-1 10"],
]
SHOWN_ROWS = {
    "A-1": row(0, 100, 40, 20, 40),
    "ABCDEFGHIJ-12345": row(10, 1_000_000_000, 999_999_990, 999_999_990, 999_999_990),
    "C": row(5, 5, 5, 5, 5),
    "D": row(20, 120, 70, 45, 110),
}
SHARE = 100 * 999_999_980 / 999_999_990
DRAWN = [[0, 20, 20, 20, 40], [0, SHARE, SHARE, 0, SHARE], [0, 0, 0, 0, 0], [0, 25, 25, 65, 50]]


def expect_both(page, stock, lines):
    """The tables show that stock, and those lines of the order."""
    page.wait_rows("order", {f"Line {n}": line for n, line in enumerate(lines, 1)})
    page.wait_rows("stock", stock)


def offered(page, part):
    """The names of the forms and the buttons that send something, of the whole page or of a part."""
    script = "return [...document.querySelectorAll(arguments[0])].map(each => each.id)"
    return page.run(script, f"{part} button.sends[id], {part} form[data-begins]")


# each form with values, and the line that they make; each is sent by the office, one after the other
FILLED = [
    ("#field", dict(branch="F1", article="A-1", lower=0, upper=1000, start=7), "field F1 A-1 0 1000 7"),
    ("#field", dict(branch="F2", article="A-1", lower="00", upper="1e3", start=7), "field F2 A-1 0 1000 7"),
    ("#deliver", dict(branch="F1", article="a-1", quantity=500), "deliver F1 A-1 500"),
    ("#writeoff", dict(branch="F1", article="A-1", quantity="007"), "writeoff F1 A-1 7"),
    ("#rebound", dict(branch="F1", article="A-1", lower=1, upper=900), "rebound F1 A-1 1 900"),
    (
        "#open",
        dict(number=8401, until=FOREVER, way="add", branch="F1", article="A-1", quantity=5),
        f"open 8401 {FOREVER} add F1 A-1 5",
    ),
    ("#more", dict(way="add", branch="F1", article="A-1", quantity=6), "more 8401 add F1 A-1 6"),
    ("#use", dict(verb="use", quantity=2), "use 8401 F1 A-1 2"),
    ("#use", dict(verb="release", quantity=3), "release 8401 F1 A-1 3"),
    (
        "#transfer",
        {"number": 8402, "until": FOREVER, "article": "A-1", "from": "F1", "to": "F2", "quantity": 4},
        f"transfer 8402 {FOREVER} A-1 F1 F2 4",
    ),
    ("#own-line", dict(own="commit 8401"), "commit 8401"),
]


class Pages(PageCase):
    def test_the_files_are_plain(self):
        """The page names its style and its first script, and has none in itself; nothing is put in as markup, asked of another
        origin, or run by an attribute."""
        texts = {}
        for path in glob.glob(os.path.join(PAGE, "*")):
            with open(path, encoding="utf-8") as file:
                texts[os.path.basename(path)] = file.read()
        for name, text in texts.items():
            lines = text.splitlines()
            expect(len(lines) < 500 and max(map(len, lines)) <= 120, f"{name} is longer or wider")
            for pattern in [
                "innerHTML",
                "outerHTML",
                "insertAdjacent",
                r"document\.write",
                r"\seval\b",
                r"\sstyle=",
                r"<[^>]*\son[a-z]+=",
                "<style",
            ]:
                expect(not re.search(pattern, text), f"there is {pattern} in {name}")
            others = set(re.findall(r"[a-z]+://[^\"'` ]*", text)) - {"http://www.w3.org/2000/svg", "http://www.w3.org/1999/xhtml"}
            expect(not others, f"addresses in {name}: {others}")
        html = texts["desk.html"]
        expect(re.findall("<script.*", html) == ['<script type="module" src="desk.js"></script>'], "there is another script")
        expect(re.findall("<link.*", html) == ['<link rel="stylesheet" href="desk.css">'], "there is another style")

    def test_a_branch_is_shown(self):
        """The page shows a branch's fields with the numbers and the pictures that the rules make of the commands, all of them or
        those that are looked for. An unknown branch has none; what is typed small becomes a capital; and a table that is old is
        said to be so."""
        tell_all(self.front, SHOWN)
        found_two = {name: SHOWN_ROWS[name] for name in ["A-1", "ABCDEFGHIJ-12345"]}
        with Page(self.front, "n1") as page:
            page.fill("#show-stock", branch="s1")
            page.press("#show-stock button")
            page.wait_rows("stock", SHOWN_ROWS)
            expect(
                "Stock of S1. Articles: 4. Pieces in all: 1,000,000,105." in page.text("#stock-table caption"), "another total"
            )
            for found, want in zip(pictures(page), DRAWN, strict=True):
                expect(all(abs(a - b) < 1e-4 for a, b in zip(found, want, strict=True)), f"drawn {found} and not {want}")
            label = page.find("#stock-table svg").get_attribute("aria-label")
            expect(label == "Of 0 to 100: value 40, outcomes 20 to 40", f"a picture is named {label}")
            page.find("#filter").send_keys("-1")
            page.wait_rows("stock", found_two)
            page.show("stock", "NONE")
            page.wait_rows("stock", {})
            with without(self.front.stop, self.front.start):
                page.fill("#show-stock", branch="S1")
                page.press("#show-stock button")
                page.wait(lambda: "does not answer now" in page.text("#stock-told"), "an old table is shown as if it were new")
            page.wait_rows("stock", found_two)

    def test_an_order_by_its_form_and_its_buttons(self):
        """The order is opened with two lines, used, given back, raised and committed, each by a form or a button: the tables
        follow, and at the end nothing is offered for it."""
        tell_all(self.front, ["field O1 A 0 100 50", "field O1 B 0 100 50", "field O1 C 0 100 50"])
        stock = {name: row(0, 100, 50, 50, 50) for name in "ABC"}
        with Page(self.front, "n1") as page:
            page.show("stock", "O1")
            page.wait_rows("stock", stock)
            page.fill("#open", number=8101, until=FOREVER, article="A", quantity=30)
            page.press("#add-line")
            page.fill("#open fieldset:nth-child(2)", way="add", article="B", quantity=20)
            page.tell("#open")
            a, b = ["take", "O1", "A", "30", "0", "30"], ["add", "O1", "B", "20", "0", "20"]
            stock |= {"A": row(0, 100, 50, 20, 50), "B": row(0, 100, 50, 50, 70)}
            expect_both(page, stock, [a, b])
            unused = "Nothing of it was used: Commit now gives all back."
            expect(unused in page.text("#order") and "one of yours (range 0)" in page.text("#order"), "less is told of it")
            # order 1 is the first of the range, and free
            emptied = "open 1 UNTIL take O1 ARTICLE QUANTITY"
            page.wait(lambda: page.texts("#open legend") == ["Line 1"] and page.text("#open code") == emptied, "not emptied")
            page.tell("#use", verb="use", line="O1 A", quantity=12)
            expect_both(page, stock, [[*a[:4], "12", "18"], b])
            expect("Commit settles what was used" in page.text("#order"), "it is not told what a commit does")
            page.tell("#use", verb="release", line="O1 B", quantity=5)
            stock["B"] = row(0, 100, 50, 50, 65)
            expect_both(page, stock, [[*a[:4], "12", "18"], ["add", "O1", "B", "15", "0", "15"]])
            page.tell("#more", way="take", article="C", quantity=1)
            stock["C"] = row(0, 100, 50, 49, 50)
            lines = [[*a[:4], "12", "18"], ["add", "O1", "B", "15", "0", "15"], ["take", "O1", "C", "1", "0", "1"]]
            expect_both(page, stock, lines)
            page.press("#commit")
            page.wait_said("Done")
            stock = {"A": row(0, 100, 38, 38, 38), "B": row(0, 100, 50, 50, 50), "C": row(0, 100, 50, 50, 50)}
            expect_both(page, stock, [[*line[:5], "–"] for line in lines])
            expect(page.text("#order .state") == "committed" and not page.all("#order button"), "it may still be changed")

    def test_orders_that_may_do_less(self):
        """A firm order can only be committed, used and released, a transfer gets no more, and an order that ended has no button
        at all."""
        tell_all(self.front, ["field O3 A 0 100 50", "field O4 A 0 100 50"])
        tell_all(self.front, [f"open 8201 {FOREVER} take O3 A 9", f"transfer 8202 {FOREVER} A O3 O4 9"])
        with Page(self.front, "ho") as page:
            page.show("order", "8201")
            page.press("#firm")
            page.wait_said("Done")
            page.wait(lambda: page.text("#order .state") == "firm", "it is not firm")
            expect(offered(page, "#order") == ["commit", "use"], "a firm order is offered more")
            page.show("order", "8202")
            expect(offered(page, "#order") == ["commit", "abort", "firm", "use"], "a transfer is offered more")
            page.tell("#use", verb="use", line="O3 A", quantity=9)
            lines = [["take", "O3", "A", "9", "9", "0"], ["add", "O4", "A", "9", "9", "0"]]
            page.wait_rows("order", {f"Line {n}": line for n, line in enumerate(lines, 1)})
            expect(offered(page, "#order") == ["commit", "abort", "firm"], "there is nothing left to use")
            page.press("#abort")
            page.wait_said("Done")
            page.wait(lambda: page.text("#order .state") == "aborted", "it is not aborted")
            expect(offered(page, "#order") == [], "an order that ended is offered something")
            page.fill("#show-order", number=999_999_998)
            page.press("#show-order button")
            page.wait(lambda: "There is none" in page.text("#order-told"), "an order that is not there is shown")
            expect(not page.find("#order").is_displayed(), "the order before is still shown")

    def test_groups_are_offered_what_they_may_do(self):
        """The page offers forms, buttons, and one's own lines; and what is not offered, the front refuses."""
        tell_all(self.front, ["field G1 A 0 100 50", f"open 8301 {FOREVER} take G1 A 9"])
        for user, (forms, buttons) in OFFERED.items():
            with Page(self.front, user) as page:
                page.wait(lambda: page.all("#own-line"), "nothing is offered")
                page.show("stock", "G1")
                page.show("order", "8301")
                expect(offered(page, "#commands") == forms, f"{user} is offered {offered(page, '#commands')}")
                expect(offered(page, "#order") == buttons, f"{user} is offered {offered(page, '#order')}")
                for verb in VERBS["ho"]:
                    page.run("document.querySelector('[name=own]').value = arguments[0]", f"{verb} 1")
                    may = page.run("return document.querySelector('[name=own]').checkValidity()")
                    expect(may == (verb in VERBS[user]), f"{user} may send {verb}: {may}")

    def test_the_line_that_is_shown_is_sent(self):
        """Of every form and every button, the line goes under a key of its own."""
        self.front.tell("ho", "expire 1")
        with Page(self.front, "ho") as page:
            for form, values, line in FILLED:
                page.fill(form, **values)
                shown = page.text(f"{form} .spelled code")
                expect(shown == line, f"{form} shows {shown!r} and not {line!r}")
                page.tell(form)
                expect(page.sent()[-1]["command"] == line, f"{form} sent {page.sent()[-1]}")
                expect(page.text("#line") == line and page.text("#key") == page.sent()[-1]["key"], "another command is told")
                page.wait(lambda: not page.text(f"{form} .spelled code") == line, f"{form} is not emptied")
            page.wait(lambda: page.all("#firm"), "no order is shown")
            for verb in ["firm", "commit"]:
                line = page.text(f"#{verb} code")
                expect(line == f"{verb} 8402", f"the button shows {line!r}")
                page.press(f"#{verb}")
                page.wait(lambda: page.text("#line") == line, f"{line} is not told")
                page.wait_said("Done")
                page.wait(lambda: not page.all(f"#{verb}"), f"{verb} is still offered")
                expect(page.sent()[-1]["command"] == line, f"{verb} sent {page.sent()[-1]}")
            keys = [sent["key"] for sent in page.sent()]
            expect(len(keys) == len(FILLED) + 2 == len(set(keys)), "keys are used twice")
            expect(all(re.fullmatch("[0-9a-f-]{36}", key) for key in keys), f"keys: {keys}")
            expect({sent["type"] for sent in page.sent()} == {"application/json"}, "another type is sent")

    def test_forms_tell_what_is_there(self):
        """The form says what is there on its field, or on both fields of a transfer, as soon as the field is named."""
        tell_all(self.front, ["field T1 A 10 100 50", "field T2 A 0 1000 50", f"open 8601 {FOREVER} take T1 A 15 add T2 A 2"])
        told = {
            "T1": "T1 A now: 25 free to promise, room for 50 more; value 50, bounds 10 to 100.",
            "T2": "T2 A now: 50 free to promise, room for 948 more; value 50, bounds 0 to 1,000.",
            "T3": "T3 does not have A.",
        }
        with Page(self.front, "ho") as page:
            for form, values, branches in [
                ("#deliver", {"branch": "T1", "article": "A"}, ["T1"]),
                ("#open", {"branch": "T3", "article": "A"}, ["T3"]),
                ("#transfer", {"article": "A", "from": "T1", "to": "T2"}, ["T1", "T2"]),
            ]:
                page.fill(form, **values, quantity=1)
                want = " ".join(told[branch] for branch in branches)
                page.wait(lambda: want in page.texts(f"{form} .now"), f"{form} does not tell {want!r}")

    def test_what_inputs_take(self):
        """Each input takes what the rules allow and nothing else, and has a label and a hint; 64 lines may be promised, and no
        more."""
        with Page(self.front, "ho") as page:
            for name, (form, values) in INPUTS.items():
                for value in values:
                    script = """const input = document.querySelector(`#commands [name=${arguments[0]}]`);
                    input.value = arguments[1];
                    const fits = input.maxLength < 0 || input.value.length <= input.maxLength;
                    return fits && input.checkValidity()"""
                    takes = page.run(script, name, value)
                    expect(takes == bool(re.fullmatch(form, value)), f"{name} takes {value}: {takes}")
            for name, minutes in MOMENTS.items():
                for minute, want in minutes.items():
                    script = """const input = document.querySelector(`#commands [name=${arguments[0]}]`);
                    input.value = arguments[1];
                    return input.checkValidity()"""
                    takes = page.run(script, name, f"{local(minute):%Y-%m-%dT%H:%M}")
                    expect(takes == want, f"{name} takes {minute}: {takes}")
            controls = "return [...document.querySelectorAll('main input, main select')]"
            unnamed = page.run(f"{controls}.filter(each => !each.labels.length).length")
            expect(unnamed == 0, f"{unnamed} have no label")
            unlimited = page.run(
                f"{controls}.filter(each => each.dataset.word && (!each.required || !each.ariaDescribedByElements)).length"
            )
            expect(unlimited == 0, f"{unlimited} have no limits or no hint")
            page.run("for (let line = 1; line < 64; line += 1) document.getElementById('add-line').click()")
            expect(len(page.all("#open fieldset")) == 64, "there are no 64 lines")
            expect(not page.find("#add-line").is_displayed(), "a 65th line is offered")
            page.press("#open fieldset:nth-child(2) > button")
            expect(page.texts("#open legend") == [f"Line {n}" for n in range(1, 64)], "lines are numbered with a gap")
            expect(page.run("return document.activeElement.id") == "add-line", "the focus is lost")

    def test_a_keyboard_is_enough(self):
        """With the keyboard alone a branch is shown, and an order is opened and committed, with a line added and taken away; the
        focus is never lost."""
        tell_all(self.front, ["field K1 A-1 0 100 50"])
        with Page(self.front, "n1") as page:
            page.wait(lambda: page.all("#open"), "nothing is offered")
            keys = Keys(page)
            keys.tab_to("#show-stock [name=branch]")
            keys.press("k1", keys.names.ENTER)
            page.wait_rows("stock", {"A-1": row(0, 100, 50, 50, 50)})
            keys.tab_to("#open [name=number]")
            keys.press("8501")
            keys.tab_to("#open [name=until]")
            keys.write_moment(UNTIL)
            keys.tab_to("#open [name=way]")
            keys.press(keys.names.ARROW_DOWN)
            keys.tab_to("#open [name=article]")
            keys.press("a-1")
            keys.tab_to("#open [name=quantity]")
            keys.press("30")
            keys.tab_to("#add-line")
            keys.press(keys.names.ENTER)
            expect(page.run("return document.activeElement.name") == "way", "the new line is not at the keys")
            keys.tab_to("#open fieldset:nth-child(2) > button")
            keys.press(keys.names.ENTER)
            keys.tab_to("#open .sends")
            expect(page.text("#open .spelled code") == f"open 8501 {UNTIL} add K1 A-1 30", page.text("#open .spelled code"))
            keys.press(keys.names.ENTER)
            page.wait_said("Done")
            page.wait_rows("stock", {"A-1": row(0, 100, 50, 50, 80)})
            keys.tab_to("#use [name=quantity]", is_back=True)
            keys.press("10", keys.names.ENTER)
            page.wait_rows("order", {"Line 1": ["add", "K1", "A-1", "30", "10", "20"]})
            expect(page.run("return document.activeElement.tagName") == "H3", "the focus is lost")
            keys.tab_to("#commit")
            keys.press(keys.names.ENTER)
            page.wait_rows("stock", {"A-1": row(0, 100, 60, 60, 60)})
            page.wait(lambda: page.text("#order .state") == "committed", "it is not committed")
            expect(page.run("return document.activeElement.tagName") == "H3", "the focus is lost")

    def test_a_phone_is_wide_enough(self):
        """With the longest codes and numbers nothing is wider than the page, and every control is large enough for a thumb."""
        article = "M" * 16
        fields = [f"field WWWWWWWW {article} 0 1000000000 999999999", f"field MMMMMMMM {article} 0 1000000000 1"]
        tell_all(self.front, fields)
        order = f"open 899999990 {FOREVER} take WWWWWWWW {article} 1000000 add MMMMMMMM {article} 1000000"
        tell_all(self.front, [order])
        with Page(self.front, "ho", NARROW) as page:
            page.show("stock", "WWWWWWWW")
            page.show("order", "899999990")
            page.run("document.querySelectorAll('details').forEach(each => { each.open = true; })")
            page.fill("#open", number=899999990, until=FOREVER, article=article, quantity=1000000)
            page.tell("#open", WORDS["OrderThere"])
            for width in [NARROW[0], 360, 720, 1000]:
                page.resize((width, NARROW[1]))
                wide, small = page.run(
                    """return [document.documentElement.scrollWidth,
                  [...document.querySelectorAll('button, input, select, summary')].filter(each => each.checkVisibility())
                    .filter(each => Math.min(each.offsetWidth, each.offsetHeight) < arguments[0]).map(each => each.outerHTML)]""",
                    THUMB,
                )
                expect(wide <= width, f"{wide} wide of {width}")
                expect(not small, f"too small at {width}: {small}")

    def test_colours_differ_enough(self):
        """Texts and shapes differ enough from their grounds, in light and in dark."""
        script = """const shown = document.createElement('p');
        document.body.append(shown);
        const light = name => {
          shown.style.color = `var(--${name})`;
          const parts = getComputedStyle(shown).color.match(/[0-9]+/g).slice(0, 3).map(part => part / 255);
          const [red, green, blue] = parts.map(part => part > 0.04045 ? ((part + 0.055) / 1.055) ** 2.4 : part / 12.92);
          return 0.2126 * red + 0.7152 * green + 0.0722 * blue + 0.05;
        };
        const found = arguments[0].map(([one, other]) => [light(one), light(other)].sort((a, b) => b - a));
        shown.remove();
        return found.map(([more, less]) => more / less)"""
        with Page(self.front, "n1") as page:
            grounds = []
            for is_dark in [False, True]:
                page.resize(WIDE, is_dark)
                grounds.append(page.run("return getComputedStyle(document.body).backgroundColor"))
                for (one, other, least), found in zip(CONTRASTS, page.run(script, CONTRASTS), strict=True):
                    expect(found >= least, f"{one} on {other}, dark {is_dark}: {found:.2f}")
            expect(grounds[0] != grounds[1], "dark is as light")
