"""Tests of the page where one front has several desks, in Chromium: the choice of a desk, an article at all desks, a command that
stays with its desk, a keyboard alone, and widths."""

import itertools
import json
import re
import unittest

from support.browser import FOREVER, NARROW, THUMB, WATCH, WIDE, Keys, Page, is_there, row
from support.chains import Chain
from support.fronts import Front, FrontCase, Haproxy
from support.programs import expect

# on a phone all parts stand below each other
LONG = ["northwest1", "southeast22", "m" * 20, "w" * 12]


def done(front: Haproxy, desk: str, *commands: str) -> None:
    for command in commands:
        found = front.tell("ho", command, desk=f"/{desk}")
        expect(found[0] == 200, f"{command} at {desk}: {found}")


def chosen(page: Page) -> dict[str, bool]:
    """The desks to choose from, and which of them the page is about."""
    script = "return [...document.querySelectorAll('#desks a')].map(each => [each.textContent, each.ariaCurrent === 'page'])"
    return dict(page.run(script))


def wait_desk(page: Page, desk: str) -> None:
    """Waits until the page of that desk has its user and a branch's stock."""
    page.wait(lambda: page.run("return location.pathname") == f"/{desk}/", f"it is not {desk}'s page")
    page.wait(lambda: page.text("h1") == f"Stock desk {desk}", f"it does not say {desk}")
    page.wait(lambda: page.texts("#stock-table tbody th") == ["A-1", "A-2"], "no stock is shown")
    page.run(WATCH)


def pieces(text: str) -> str:
    found = re.search(r"([0-9,]+) pieces in all", text)
    return found[1] if found else ""


@unittest.skipUnless(is_there(), "chromium, its driver or Selenium is not here")
class PageDesks(FrontCase):
    def test_a_desk_is_chosen(self):
        """The user chooses among own desks; what is shown and sent is that desk's, and where a front has one desk there is no
        choice."""
        with Chain(self.program, self.folder, users=["o2 office"], at=["o2 south"]) as front:
            with Page(front, "ho") as page:
                wait_desk(page, "north")
                expect(chosen(page) == {"north": True, "south": False}, f"{chosen(page)}")
                expect(page.texts("#branch-list button") == ["N1", "N2"], "other branches")
                page.press("#desks a:nth-child(2)")
                wait_desk(page, "south")
                expect(chosen(page) == {"north": False, "south": True}, f"{chosen(page)}")
                expect("south" in page.browser.title, "the title does not name the desk")
                expect(page.texts("#branch-list button") == ["S1", "S2"], "other branches")
                page.tell("#deliver", branch="S2", article="A-1", quantity=7)
                page.show("stock", "S2")
                page.wait(lambda: page.rows("stock")["A-1"] == row(0, 1_000_000, 507, 507, 507), f"{page.rows('stock')}")
                page.browser.refresh()
                wait_desk(page, "south")
                expect(page.rows("stock")["A-1"] == row(0, 1_000_000, 507, 507, 507), "another branch")
                page.press("#desks a:nth-child(1)")
                wait_desk(page, "north")
                expect(page.rows("stock")["A-1"] == row(0, 1_000_000, 500, 500, 500), "another desk's stock")
            for user, desk in [("n1", "north"), ("o2", "south")]:
                with Page(front, user) as page:
                    wait_desk(page, desk)
                    expect(chosen(page) == {desk: True}, f"{user}: {chosen(page)}")
                    expect(page.text("#article-title") == "An article at all branches", page.text("#article-title"))

    def test_one_desk_leaves_no_choice(self):
        with Front(self.program, self.folder) as front, Page(front, "ho") as page:
            page.show("article", "A-1")
            for part in ["#desks", "#article-beside"]:
                expect(not page.find(part).is_displayed(), f"{part} is there")
            expect(page.text("h1") == "Stock desk", page.text("h1"))

    def test_an_article_at_all_desks(self):
        """The page shows each desk's sheet with its moment, and the sum, about which it says that it is of different moments.
        Where a desk does not answer, or has none, the page says so."""
        with Chain(self.program, self.folder) as front:
            done(front, "north", "field N3 BOOT 10 90 40", "open 7 60 take N3 BOOT 5")
            done(front, "south", "field S3 BOOT 0 1000 204", "field S4 BOOT 0 50 3")
            with Page(front, "ho") as page:
                page.show("article", "BOOT")
                page.wait(lambda: pieces(page.text("#article-sum")) == "247", page.text("#article-sum"))
                page.wait_rows("article-table", {"N3": row(10, 90, 40, 35, 40)})
                page.wait_rows("article-others", {"S3": row(0, 1_000, 204, 204, 204), "S4": row(0, 50, 3, 3, 3)})
                expect("BOOT at all branches of north. Branches: 1. Pieces in all: 40." in page.text("#article-table"), "caption")
                caption = page.text("#article-others caption")
                words = r"BOOT at south as of [\d:]{8}\. Branches: 2\. Pieces in all: 207\."
                expect(re.fullmatch(words, caption), caption)
                words = r"BOOT at 2 of 2 .* a sum of different moments \(north as of [\d:]{8}, south as of [\d:]{8}\): .*"
                expect(re.fullmatch(words, page.text("#article-sum")), page.text("#article-sum"))
                page.browser.refresh()
                page.wait(lambda: pieces(page.text("#article-sum")) == "247", page.text("#article-sum"))
                page.show("article", "NOWHERE")
                page.wait(lambda: pieces(page.text("#article-sum")) == "0", page.text("#article-sum"))
                expect("no branch of south has NOWHERE" in page.text("#article-others"), page.text("#article-others"))
                front.desk_kill("south")
                page.show("article", "BOOT")
                page.wait(lambda: "It lacks the desks that have not answered" in page.text("#article-sum"), "nothing is lacking")
                expect(pieces(page.text("#article-sum")) == "40" and "1 of 2 desks" in page.text("#article-sum"), "another sum")
                front.desk_start("south")
                page.wait(lambda: pieces(page.text("#article-sum")) == "247", page.text("#article-sum"))

    def test_a_deal_is_seen_and_left_alone(self):
        """The office sees it, and the page proposes to the office a number below; a user who carries deals is offered nothing."""
        with Chain(self.program, self.folder) as front:
            found = front.tell("bt", f"open 900000001 {FOREVER} take N1 A-1 3", "between-900000001-open", "/north")
            expect(found[0] == 200, f"{found}")
            with Page(front, "ho") as page:
                page.show("order", "900000001")
                expect("of a deal between desks" in page.text("#order"), page.text("#order"))
                expect("not one of your orders" in page.text("#order") and not page.all("#commit"), "it may be ended")
                proposed = "return document.querySelector('#open [name=number]').value"
                page.wait(lambda: page.run(proposed) == "899000000", "another number is proposed")
                page.tell("#own-line", "not one of yours", own="abort 900000001")
                page.tell("#own-line", "never comes to its last moment", own=f"expire {FOREVER}")
            with Page(front, "bt") as page:
                wait_desk(page, "north")
                expect(page.text("#user") == "bt, group: between" and not page.all("#commands form"), page.text("#user"))

    def test_a_command_stays_with_its_desk(self):
        """The page does not ask at another desk for a command whose answer was lost; back at its own desk it asks under its key,
        and the command is done once."""
        with Chain(self.program, self.folder) as front, Page(front, "w1") as page:
            wait_desk(page, "north")
            page.run("lose = 1000000")
            page.send("#deliver", branch="N1", article="A-1", quantity=7)
            page.wait_told("No answer yet")
            page.press("#desks a:nth-child(2)")
            wait_desk(page, "south")
            expect(page.text("#said") == "No command was sent yet.", page.text("#said"))
            page.tell("#deliver", branch="S1", article="A-1", quantity=5)
            page.press("#desks a:nth-child(1)")
            wait_desk(page, "north")
            page.wait_said("Done")
            values = [front.ask("ho", "GET", f"/{desk}/v1/fields/{desk[0].upper()}1/A-1")[1] for desk in ["north", "south"]]
            expect([json.loads(value)["value"] for value in values] == [507, 505], f"{values}")

    def test_the_keyboard_is_enough(self):
        """The keyboard chooses a desk, and shows an article at all, on a phone, too; the focus is seen wherever it stops."""
        with Chain(self.program, self.folder) as front:
            for size in [WIDE, NARROW]:
                with Page(front, "ho", size) as page:
                    wait_desk(page, "north")
                    keys = Keys(page)
                    keys.tab_to("#desks a:nth-child(2)")
                    keys.press(keys.names.ENTER)
                    wait_desk(page, "south")
                    keys = Keys(page)
                    keys.tab_to("#stock-table tbody button")
                    keys.press(keys.names.ENTER)
                    page.wait(lambda: pieces(page.text("#article-sum")) == "2,000", page.text("#article-sum"))
                    keys.tab_to("#add-line")

    def test_no_wider_than_the_page(self):
        """Names and numbers are long, on a phone and beside each other, in light and dark; every control is as large as a
        thumb."""
        with Chain(self.program, self.folder, LONG, users=["o2 office"], at=[f"o2 {' '.join(LONG)}"]) as front:
            article = "W" * 16
            for number, desk in enumerate(LONG):
                found = front.tell("o2", f"field WWWWWWW{number} {article} 0 1000000000 999999999", desk=f"/{desk}")
                expect(found[0] == 200, f"{found}")
            with Page(front, "o2") as page:
                page.wait(lambda: len(chosen(page)) == len(LONG), "not all desks are there")
                page.show("article", article)
                page.wait(lambda: pieces(page.text("#article-sum")) == "3,999,999,996", page.text("#article-sum"))
                for width, is_dark in itertools.product([NARROW[0], 360, 720, WIDE[0]], [False, True]):
                    page.resize((width, NARROW[1]), is_dark)
                    wide, small = page.run(
                        """const parts = document.querySelectorAll('button, input, a, summary');
                        const isSmall = each => Math.min(each.offsetWidth, each.offsetHeight) < arguments[0];
                        return [document.documentElement.scrollWidth,
                          [...parts].filter(each => each.checkVisibility() && isSmall(each)).map(each => each.outerHTML)]""",
                        THUMB,
                    )
                    expect(wide <= width, f"{wide} wide of {width}")
                    expect(not small, f"too small at {width}: {small}")
