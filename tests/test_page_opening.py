"""Tests of what the page opens with, in Chromium through a front that runs: branches, the open orders, an article at all
branches, how full the desk is. And tests of moments as dates and times, and of the order number that the page proposes."""

import json
import re
import time

from support.browser import DAY, FOREVER, NARROW, THUMB, WIDE, Keys, Page, PageCase, row, shown, tell_all
from support.fronts import Front
from support.programs import expect

MOST_SHOWN = 50


def now() -> int:
    return int(time.time() // 60)


def chips(page: Page) -> dict[str, bool]:
    """The branches to choose from, and which of them is chosen."""
    script = "return [...document.querySelectorAll('#branch-list button')].map(each => [each.textContent, each.ariaPressed])"
    return {name: pressed == "true" for name, pressed in page.run(script)}


def numbers(page: Page) -> list[int]:
    """The numbers of the orders that are listed."""
    return [int(number) for number in page.texts("#orders-table tbody th")]


def proposed(page: Page, form: str = "#open") -> str:
    return page.run("return document.querySelector(`${arguments[0]} [name=number]`).value", form)


class Opening(PageCase):
    def test_it_opens_with_a_branch(self):
        """The branches that have an article are there to choose from. The first one, or one of those to which the user is
        restricted, is shown at once, and later the one that was shown last."""
        with Front(self.program, self.folder, shops=["n2 7 B2 B3"]) as front:
            tell_all(front, [f"field {branch} A 0 100 {number}" for number, branch in enumerate(["B1", "B2", "B3"], 10)])
            with Page(front, "n1") as page:
                page.wait_rows("stock", {"A": row(0, 100, 10, 10, 10)})
                expect(chips(page) == {"B1": True, "B2": False, "B3": False, "N1": False}, f"branches: {chips(page)}")
                page.press("#branch-list button:nth-child(3)")
                page.wait_rows("stock", {"A": row(0, 100, 12, 12, 12)})
                expect(chips(page)["B3"] and not chips(page)["B1"], f"chosen: {chips(page)}")
                expect(page.text("#open code").endswith("take B3 ARTICLE QUANTITY"), "the form is on another branch")
                page.come_again()
                page.wait_rows("stock", {"A": row(0, 100, 12, 12, 12)})
            with Page(front, "n2") as page:
                page.wait_rows("stock", {"A": row(0, 100, 11, 11, 11)})
                expect(page.text("#user") == "n2, group: shops, range 7, held to B2, B3", page.text("#user"))
                page.tell("#open", "held to your branches", number=7_000_000, until=FOREVER, branch="B1", article="A", quantity=1)
                page.tell("#own-line", "not one of yours", own=f"open 1 {FOREVER} take B2 A 1")
                page.tell("#open", branch="B2")

    def test_what_is_written_stays_on_its_branch(self):
        """A form in which something was written does not follow the branch that is shown, and an order that is looked for does
        not overwrite it."""
        tell_all(self.front, ["field C1 A 0 100 50", "field C2 A 0 100 50"])
        with Page(self.front, "n1") as page:
            page.show("stock", "C1")
            page.fill("#open", article="A")
            page.fill("#show-order", number=77)
            page.show("stock", "C2")
            page.press("#refresh")
            page.wait(lambda: "take C1 A" in page.text("#open code"), "the form went to another branch")
            expect(page.find("#show-order [name=number]").get_property("value") == "77", "written over")
            expect(page.text("#transfer code").endswith("ARTICLE C2 TO QUANTITY"), "an empty form stayed behind")

    def test_an_article_at_all_branches(self):
        """The article is shown by a press in a branch's stock, or by its code; and a press on a branch there shows its stock."""
        tell_all(self.front, ["field D1 ART-7 0 100 50", "field D2 ART-7 10 60 20", "field D2 OTHER 0 9 9"])
        tell_all(self.front, [f"open 7101 {FOREVER} take D1 ART-7 30 add D2 ART-7 5"])
        want = {"D1": row(0, 100, 50, 20, 50), "D2": row(10, 60, 20, 20, 25)}
        with Page(self.front, "w1") as page:
            page.show("stock", "D1")
            page.press("#stock-table tbody button")
            page.wait_rows("article", want)
            expect("ART-7 at all branches. Branches: 2. Pieces in all: 70." in page.text("#article caption"), "another caption")
            labels = page.run("return [...document.querySelectorAll('#article svg')].map(each => each.ariaLabel)")
            told = ["Of 0 to 100: value 50, outcomes 20 to 50", "Of 10 to 60: value 20, outcomes 20 to 25"]
            expect(labels == told, f"pictures: {labels}")
            page.press("#article-table tbody tr:nth-child(2) button")
            page.wait_rows("stock", {"ART-7": want["D2"], "OTHER": row(0, 9, 9, 9, 9)})
            page.show("article", "NOWHERE")
            page.wait(lambda: "No branch has NOWHERE." in page.text("#article caption"), "it is somewhere")

    def test_how_full_the_desk_is(self):
        """The page says so in numbers and bars, and from nine tenths on in words; what is set aside for the ends of open orders
        counts as taken."""
        words = "Nearly full: {} of 200,000 places are taken or set aside."
        for places, opened, fields, orders, want in [
            (179_000, 999, 8_999, 89_999, []),
            (179_000, 1_000, 0, 0, [words.format("180,000")]),
            (200_000, 0, 9_000, 90_000, ["Full: all places", "Nearly full: 9,000 of 10,000 fields", "90,000 of 100,000 orders"]),
            (9, 0, 10_000, 100_000, ["Full: all fields are taken", "Full: all orders are taken"]),
        ]:
            desk = {"clock": 0, "fields": fields, "open": opened, "orders": orders, "places": places}
            with self.subTest(desk=desk), Page(self.front, "n1") as page:
                page.run("views['/v1/desk'] = arguments[0]", json.dumps(desk))
                page.press("#refresh")
                page.wait(lambda: f"{places:,} of 200,000" in page.text("#desk-bars"), "it is not told")
                expect(f"{fields:,} of 10,000" in page.text("#desk-bars"), "other fields")
                expect(f"{orders:,} of 100,000" in page.text("#desk-bars"), "other orders")
                script = "return [...document.querySelectorAll('#desk-bars .span')].map(each => each.getAttribute('width'))"
                widths = page.run(script)
                shares = [100 * places / 200_000, fields / 100, orders / 1_000]
                expect([float(width.rstrip("%")) for width in widths] == shares, f"bars: {widths}")
                told = page.texts("#fullness p") if page.find("#fullness").is_displayed() else []
                expect(len(told) == (len(want) + 1 if want else 0), f"words: {told}")
                expect(all(part in told[index] for index, part in enumerate(want)), f"words: {told}")

    def test_no_wider_than_the_page(self):
        """A full list with the longest codes and numbers, an article and a branch stand on a phone and beside each other, in
        light and dark; and every control is large enough for a thumb."""
        branches, article = ["WWWWWWWW", "MMMMMMMM"], "W" * 16
        tell_all(self.front, [f"field {branch} {article} 0 1000000000 500000000" for branch in branches])
        lines = " ".join(f"take {branch} {article} 1000000" for branch in branches)
        tell_all(self.front, [f"open {899_999_900 + n} {now() + n} {lines}" for n in range(MOST_SHOWN)])
        with Page(self.front, "ho") as page:
            page.show("stock", branches[0])
            page.show("article", article)
            page.run("views[`/v1/open/0`] = arguments[0]", self.front.ask("ho", "GET", "/v1/open/899999899")[1])
            page.press("#refresh")
            page.wait(lambda: len(numbers(page)) == MOST_SHOWN, "the list is not full")
            for width, is_dark in [(NARROW[0], False), (360, True), (720, False), (WIDE[0], True)]:
                page.resize((width, NARROW[1]), is_dark)
                wide, small = page.run(
                    """return [document.documentElement.scrollWidth, [...document.querySelectorAll('button, input, a, summary')]
                    .filter(each => each.checkVisibility() && Math.min(each.offsetWidth, each.offsetHeight) < arguments[0])
                    .map(each => each.outerHTML)]""",
                    THUMB,
                )
                expect(wide <= width, f"{wide} wide of {width}")
                expect(not small, f"too small at {width}: {small}")


class OpenOrders(PageCase):
    def test_fifty_at_a_time(self):
        """The page lists all open orders, by their numbers, with what they hold until when; orders that ended are not there."""
        with Front(self.program, self.folder) as front:
            until = now() + 10 * DAY
            commands = [f"open {number} {until + number} take N1 A-1 3" for number in range(1, 131)]
            tell_all(front, [*commands, *[f"commit {number}" for number in [1, 60, 130]], "field N9 A-1 0 9 0"])
            tell_all(front, [f"transfer 200 {FOREVER} A-1 N1 N9 5", "use 2 N1 A-1 1", "firm 2"])
            rest = [number for number in range(2, 130) if number != 60] + [200]
            with Page(front, "n1") as page:
                page.wait(lambda: numbers(page) == rest[:50], f"listed: {numbers(page)}")
                expect(page.text("#orders caption") == f"Open orders: 50 of {len(rest)}.", page.text("#orders caption"))
                expect(page.rows("orders")["3"] == [f"{shown(until + 3)} ", "take 3 of A-1 at N1"], f"{page.rows('orders')['3']}")
                expect(page.rows("orders")["2"][1] == "take 3 of A-1 at N1 firm", "a firm one is not told")
                page.press("#orders-next")
                page.wait(lambda: numbers(page) == rest[50:100], f"listed: {numbers(page)}")
                page.press("#orders-next")
                page.wait(lambda: numbers(page) == rest[100:], f"listed: {numbers(page)}")
                expect(page.rows("orders")["200"] == ["no end ", "move 5 of A-1 from N1 to N9"], f"{page.rows('orders')['200']}")
                expect(not page.find("#orders-next").is_displayed(), "more is offered")
                page.press("#orders-table tbody button")
                page.wait(lambda: f"Order {rest[100]}" in page.text("#order h3"), "it is not shown")
                expect(f"until {shown(until + rest[100])}" in page.text("#order"), page.text("#order"))
                page.press("#abort")
                page.wait(lambda: numbers(page) == rest[101:], f"listed: {numbers(page)}")
                page.press("#orders-all")
                page.wait(lambda: numbers(page) == rest[:50], f"listed: {numbers(page)}")

    def test_those_due_within_a_day_are_marked(self):
        """They are also listed alone: those that the clock aborts when it comes to this time tomorrow."""
        with Front(self.program, self.folder) as front:
            untils = {1: now() + DAY - 5, 2: now() + DAY + 60, 3: now() - 60, 4: FOREVER, 5: now() + 30, 6: now() + 60}
            tell_all(front, [f"open {number} {until} take N1 A-1 70" for number, until in untils.items()])
            tell_all(front, ["firm 6", "use 3 N1 A-1 1"])
            marks = {1: "within a day", 2: "", 3: "its time is over", 4: "", 5: "within a day", 6: ""}
            with Page(front, "w1") as page:
                page.wait(lambda: numbers(page) == list(untils), "not all are listed")
                found = {int(number): cells[0] for number, cells in page.rows("orders").items()}
                ends = {number: "no end" if until == FOREVER else shown(until) for number, until in untils.items()}
                want = {number: f"{ends[number]} {marks[number]}" for number in untils}
                expect(found == want, f"marked: {found}")
                page.press("#orders-due")
                page.wait(lambda: numbers(page) == [1, 3, 5], f"listed: {numbers(page)}")
                page.browser.refresh()
                page.wait(lambda: numbers(page) == [1, 3, 5], f"listed: {numbers(page)}")
                page.show("order", "3")
                expect("its time is over" in page.text("#order"), "it is not marked where it is shown")

    def test_a_newcomer_needs_no_code_and_no_mouse(self):
        """Somebody who knows no branch and no number finds by the keyboard alone what is promised until when, and ends an order;
        the focus is never lost."""
        with Front(self.program, self.folder) as front:
            until = now() + 90
            tell_all(front, ["field N2 CUP 0 100 50", f"open 5 {until} take N2 CUP 30", f"open 6 {FOREVER} take N1 A-1 7"])
            for user, size in [("n1", WIDE), ("ho", NARROW)]:
                with Page(front, user, size) as page:
                    page.wait(lambda: len(numbers(page)) > 0, "nothing is listed")
                    keys = Keys(page)
                    keys.tab_to("#branch-list button:nth-child(2)")
                    keys.press(keys.names.ENTER)
                    page.wait(lambda: page.texts("#stock-table tbody th") == ["CUP"], "the branch is not shown")
                    keys.tab_to("#stock-table tbody button")
                    keys.press(keys.names.ENTER)
                    page.wait(lambda: page.texts("#article-table tbody th") == ["N2"], "the article is not shown")
                    expect(page.run("return document.activeElement.id") == "article-part", "the focus is elsewhere")
                    keys.tab_to("#orders-table tbody button", is_back=True)
                    number = page.run("return Number(document.activeElement.textContent)")
                    keys.press(keys.names.ENTER)
                    page.wait(lambda: f"Order {number}" in page.text("#order h3"), "it is not shown")
                    keys.tab_to("#commit")
                    keys.press(keys.names.ENTER)
                    page.wait_said("Done")
                    page.wait(lambda: number not in numbers(page), "it is still listed")
                    page.wait(lambda: page.text("#order .state") == "committed", "it is not committed")
                    expect(page.run("return document.activeElement.tagName") == "H3", "the focus is lost")


class Moments(PageCase):
    def test_moments_are_dates_and_times(self):
        """An order's end is written and shown in the browser's zone, which the page names once; and an order may have no end."""
        tell_all(self.front, ["field M1 A 0 100 50"])
        until = now() + 3 * DAY
        with Page(self.front, "n1") as page:
            page.wait(lambda: proposed(page), "no number is proposed")
            page.fill("#open", number=7201, until=until, branch="M1", article="A", quantity=1)
            expect(page.text("#open .spelled code") == f"open 7201 {until} take M1 A 1", page.text("#open .spelled code"))
            expect(page.text("#open .meaning") == f"{until} means: {shown(until)}", page.text("#open .meaning"))
            page.tell("#open")
            expect(page.text("#meaning") == f"{until} means: {shown(until)}", page.text("#meaning"))
            page.wait(lambda: f"A plain order until {shown(until)}" in page.text("#order"), page.text("#order"))
            page.fill("#open", number=7202, until=FOREVER, branch="M1", article="A", quantity=1)
            expect(page.text("#open .meaning") == f"{FOREVER} means: no end", page.text("#open .meaning"))
            page.tell("#open")
            expect(page.sent()[-1]["command"] == f"open 7202 {FOREVER} take M1 A 1", f"sent: {page.sent()[-1]}")
            page.wait(lambda: "A plain order with no end" in page.text("#order"), page.text("#order"))
            expect(page.find("#open [name=until]").is_enabled(), "the next one has no end either")
            # it has an older name, too
            expect(len(re.findall("Asia/(?:Kolkata|Calcutta)", page.text("body"))) == 1, "the zone is not named once")

    def test_the_clock_is_a_moment(self):
        """Before the first `expire` no moment has come; the form says where the clock stands, and to which moment it is to
        move."""
        with Front(self.program, self.folder) as front, Page(front, "ho") as page:
            page.wait(
                lambda: page.texts(".clock") == 2 * ["The desk's clock: no moment has come yet."], f"{page.texts('.clock')}"
            )
            moment = now() - 100
            page.fill("#expire", now=moment)
            expect(page.text("#expire .spelled code") == f"expire {moment}", page.text("#expire .spelled code"))
            expect(page.text("#expire .meaning") == f"{moment} means: {shown(moment)}", page.text("#expire .meaning"))
            page.tell("#expire")
            page.wait(lambda: page.texts(".clock") == 2 * [f"The desk's clock: {shown(moment)}."], f"{page.texts('.clock')}")
            before = now()
            page.press("#expire .beside button")
            line = page.text("#expire .spelled code")
            expect(line in [f"expire {minute}" for minute in range(before, now() + 1)], f"this minute is {line}")
            page.tell("#expire")
            page.fill("#expire", now=moment)
            page.tell("#expire", "clock is later already")


class Numbers(PageCase):
    shops = ["n2 7", "n3 8", "n4"]

    def test_a_free_number_is_proposed(self):
        """The page proposes the first number behind those that are used, from the beginning of the range on, by few views; and
        the next one when it is used, or when somebody else has taken it meanwhile."""
        tell_all(self.front, ["field P1 A 0 1000 500"])
        tell_all(self.front, [f"open {number} {FOREVER} take P1 A 1" for number in range(7_000_000, 7_000_090)])
        with Page(self.front, "n2") as page:
            page.wait(lambda: proposed(page) == "7000090" == proposed(page, "#transfer"), f"proposed: {proposed(page)}")
            asked = sum("n2 shops GET /v1/orders/" in line for line in self.front.log())
            expect(0 < asked <= 16, f"asked {asked} times")
            page.tell("#open", until=FOREVER, branch="P1", article="A", quantity=1)
            page.wait(lambda: proposed(page) == "7000091" == proposed(page, "#transfer"), f"proposed: {proposed(page)}")
            tell_all(self.front, [f"open 7000091 {FOREVER} take P1 A 1"])
            page.tell("#open", "order number is taken", until=FOREVER, branch="P1", article="A", quantity=1)
            page.wait(lambda: proposed(page) == "7000092", f"proposed: {proposed(page)}")
            page.tell("#open")
            expect(page.sent()[-1]["command"] == f"open 7000092 {FOREVER} take P1 A 1", f"sent: {page.sent()[-1]}")
            page.come_again()
            page.wait(lambda: proposed(page) == "7000093", f"proposed: {proposed(page)}")
            page.fill("#open", number=7_000_500)
            page.tell("#transfer", "does not have", **{"until": FOREVER, "article": "A", "from": "P1", "to": "P9", "quantity": 1})
            expect(proposed(page) == "7000500", "what was written is written over")

    def test_where_the_range_is_used_up_or_there_is_none(self):
        """Behind the last number of the range, the page looks for a free one from the first on. Without a range there is none,
        and the page says so. The office has the numbers that no shop has."""
        tell_all(self.front, ["field P2 A 0 1000 500", f"open 8999999 {FOREVER} take P2 A 1"])
        with Page(self.front, "n3") as page:
            page.wait(lambda: proposed(page) == "8000000", f"proposed: {proposed(page)}")
            page.run("localStorage.setItem('desk n3', JSON.stringify({ branch: '', number: 8999998 }))")
            page.come_again()
            page.wait(lambda: proposed(page) == "8000000", f"proposed: {proposed(page)}")
            page.fill("#open", number=9_000_000)
            expect(not page.run("return document.querySelector('#open [name=number]').checkValidity()"), "another's is taken")
        with Page(self.front, "n4") as page:
            page.wait(lambda: "No orders are yours" in page.text("#open"), page.text("#open"))
            expect(proposed(page) == "", f"proposed: {proposed(page)}")
            page.show("order", "8999999")
            expect("of a shop (range 8)" in page.text("#order"), page.text("#order"))
            expect("not one of your orders" in page.text("#order") and not page.all("#commit"), "it may be ended")
        with Page(self.front, "ho") as page:
            page.wait(lambda: proposed(page) == "899000000", f"proposed: {proposed(page)}")
