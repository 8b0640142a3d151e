"""Random lines of scripts, files of requests, and changes of bytes. They are drawn with the rules beside them, so that many an
amount lies just at a bound, and most orders that are named exist."""

import re
from collections.abc import Callable, Sequence
from dataclasses import dataclass, field

from support.chance import Chance
from support.rules import ADD, LINES, TAKE, Name, Order, Rules
from support.stretches import SAID, key_of

# the verbs of most scripts; the first ones are tried first where a case is made smaller
VERBS = "field deliver writeoff rebound open open open transfer more more use use use release firm commit abort expire".split()
# the verbs for desks on which much is open
OPENING = "open open open open transfer transfer more more more use use use release firm commit abort deliver expire".split()
# the verb of the requests that a file of each kind says
OF_FILES = {"orders": "open", "deliveries": "deliver", "bounds": "rebound"}

OF_ORDERS = "more use release firm commit abort".split()

# numbers at an edge of some range, words that are no numbers, and words that are no codes or are long codes
EDGES = "0 1 64 1000000 1000001 999999999 1000000000 1000000001 4000000000 4000000001 9223372036854775808".split()
NO_NUMBERS = ["", "01", "-1", "+1", "1.0", "1e3", " 1", "one", "\u0661"]
CODES = ["n1", "-A", "K_1", "N" * 8, "N" * 9, "A" * 16, "A" * 17, "K" * 36, "K" * 37, "take", "add"]
ODD_WORDS = [*EDGES, *NO_NUMBERS, *CODES]
PIECES = [b"\n", b"\r\n", b"\r\n\r\n", b"\0", b" ", b"\xff", b"\xef\xbb\xbf", b'"', b",", b"?", b"9" * 30, b"A" * 5_000]

WIDE = "0 1000000000 500000000"
ROOMY = ["0 1000 200", "0 1000 200", WIDE, WIDE, "0 100 50"]
TIGHT = ["0 100 100", "0 100 0", "70 70 70", "999999000 1000000000 1000000000"]
BOUNDS = [*ROOMY, *TIGHT]
LARGE_AMOUNTS = [1, 10, 400_000, 1_000_000, 1_000_000]
LARGEST, LAST = 1_000_000, 4_000_000_000


def names_of(branches: int, articles: int, long: bool = False) -> list[Name]:
    pairs = [(branch, article) for article in range(articles) for branch in range(branches)]
    return [(f"BRANCH{b:02}", f"ARTICLE-{a:08}") if long else (f"N{b}", f"A-{a}") for b, a in pairs]


# the fields that a script is about: one or two busy ones, some, so many that an order has 64 lines, and some with long codes
SOME = names_of(4, 5)
FIELDS = [names_of(1, 1), names_of(2, 1), names_of(3, 2), SOME, SOME, names_of(8, 9), names_of(8, 9, long=True)]


@dataclass(repr=False)
class Known:
    """What has been said to a desk by the rules, the fields that it is about, and the verbs of most commands."""

    names: list[Name]
    verbs: Sequence[str] = tuple(VERBS)
    # about how large an amount is, where it is not small
    amounts: Sequence[int] = ()
    desk: Rules = field(default_factory=Rules)
    lines: list[bytes] = field(default_factory=list)

    def say(self, text: bytes) -> bytes:
        """Says a line, or more than one where its bytes were changed."""
        self.lines.append(text)
        for line in text.split(b"\n"):
            self.desk.take(line)
        return text

    def key(self) -> bytes:
        return b"K%d" % len(self.lines)


# ---- the words of commands


def name_of(chance: Chance, known: Known) -> Name:
    return chance.one_of(known.names)


def pieces(number: int) -> int:
    """The quantity that is nearest to this number."""
    return max(1, min(LARGEST, number))


def quantity(chance: Chance, known: Known, name: Name, way: str) -> int:
    """A small quantity, just what may be taken or added, one more or one less than that, or a large one."""
    kind = chance.whole(0, 19)
    if kind >= 18:
        return chance.one_of([LARGEST, 400_000, 1_000])
    if kind < 14 or name not in known.desk.fields:
        return chance.one_of(known.amounts) if known.amounts else chance.whole(1, 30)
    _, inf, sup = known.desk.numbers(name)
    bounds = known.desk.fields[name]
    room = inf - bounds.lo if way == TAKE else bounds.hi - sup
    return pieces(room + [0, 0, 1, -1][kind - 14])


def field_words(chance: Chance, known: Known) -> str:
    name = name_of(chance, known)
    levels = "50 49 50" if chance.share(5) else chance.one_of(BOUNDS)
    return f"{' '.join(name)} {levels}"


def moved(way: str) -> Callable[[Chance, Known], str]:
    def words(chance: Chance, known: Known) -> str:
        name = name_of(chance, known)
        return f"{' '.join(name)} {quantity(chance, known, name, way)}"

    return words


def bounds_words(chance: Chance, known: Known) -> str:
    """The words of bounds, which mostly leave no room, or nearly none."""
    name = name_of(chance, known)
    if name not in known.desk.fields or chance.share(30):
        return f"{' '.join(name)} {chance.one_of(BOUNDS).rsplit(' ', 1)[0]}"
    _, inf, sup = known.desk.numbers(name)
    lo, hi = inf - chance.one_of([0, 5, -1]), sup + chance.one_of([0, 5, 100, -1])
    return " ".join([*name, *(str(max(0, min(level, 1_000_000_000))) for level in (lo, hi))])


def until(chance: Chance, known: Known) -> int:
    """A moment for an order: soon, the last of all, or now, which is too late."""
    kind = chance.whole(0, 19)
    return LAST if kind >= 14 else known.desk.clock if kind == 13 else min(LAST, known.desk.clock + chance.whole(1, 100))


def new_number(chance: Chance, known: Known) -> int:
    return len(known.desk.orders) + 1 if chance.whole(0, 29) < 29 else chance.one_of([1, 899_999_999, 900_000_001, 999_999_999])


def open_words(chance: Chance, known: Known) -> str:
    """The words of an order: mostly a few lines on neighbouring fields, now and then about 64; more often so where there are as
    many fields."""
    is_long = chance.share(25 if len(known.names) >= LINES else 2)
    count = chance.one_of([64, 64, 63, 65]) if is_long else chance.whole(1, 4)
    first, ways = chance.whole(0, len(known.names) - 1), chance.whole(0, 15)
    words = [str(new_number(chance, known)), str(until(chance, known))]
    for nr in range(count):
        name = known.names[(first + nr) % len(known.names)]
        way = [TAKE, ADD][ways >> nr % 4 & 1]
        words += [way, *name, str(quantity(chance, known, name, way) if count <= 4 else 1 + nr % 8)]
    return " ".join(words)


def transfer_words(chance: Chance, known: Known) -> str:
    source, target = name_of(chance, known), name_of(chance, known)
    held = quantity(chance, known, source, TAKE)
    return f"{new_number(chance, known)} {until(chance, known)} {source[1]} {source[0]} {target[0]} {held}"


def order_of(chance: Chance, known: Known) -> Order | None:
    """An order: mostly one of the last that are open."""
    orders = list(known.desk.open.values() if chance.whole(0, 9) < 9 else known.desk.orders.values())
    return chance.one_of(orders[:-9:-1]) if orders else None


def number_words(chance: Chance, known: Known) -> str:
    order = order_of(chance, known)
    return str(order.number if order else chance.whole(1, 100))


def field_beside(chance: Chance, known: Known) -> str | None:
    """The number of an order of 64 lines, where there is one, and a field on which it has no line."""
    full = [order for order in known.desk.open.values() if len(order.lines) == LINES]
    beside = [(order.number, name) for order in full[:1] for name in known.desk.fields if order.line_on(name) is None]
    if not beside or not chance.share(70):
        return None
    number, name = chance.one_of(beside)
    return f"{number} {TAKE} {' '.join(name)} 1"


def line_words(chance: Chance, known: Known) -> tuple[str, Name, str, int]:
    """The number of an order, a field (mostly one of the order's), the way of its line there, and what that may still use."""
    order = order_of(chance, known)
    if order is None or chance.share(15):
        return str(order.number if order else 1), name_of(chance, known), chance.one_of([TAKE, ADD]), 1
    line = chance.one_of(order.lines)
    return str(order.number), line.name, line.way, line.held - line.used


def more_words(chance: Chance, known: Known) -> str:
    if words := field_beside(chance, known):
        return words
    number, name, way, _ = line_words(chance, known)
    way = {TAKE: ADD, ADD: TAKE}[way] if chance.share(10) else way
    return f"{number} {way} {' '.join(name)} {quantity(chance, known, name, way)}"


def used_words(chance: Chance, known: Known) -> str:
    """The words of a use or a release: of one piece, of all that is left, of one more or one less than that, or of half of it."""
    number, name, _, left = line_words(chance, known)
    return f"{number} {' '.join(name)} {pieces(chance.one_of([1, left, left + 1, left - 1, left // 2]))}"


def moment_words(chance: Chance, known: Known) -> str:
    """The words of a moment: now, soon, the moment of an order, or before now."""
    kind, order = chance.whole(0, 9), order_of(chance, known)
    if kind == 9:
        return str(max(0, known.desk.clock - 1))
    if kind >= 5 and order and order.until < LAST:
        return str(max(known.desk.clock, order.until - (kind == 8)))
    return str(min(LAST, known.desk.clock + chance.whole(0, 30)))


WORDS: dict[str, Callable[[Chance, Known], str]] = {
    "field": field_words,
    "deliver": moved(ADD),
    "writeoff": moved(TAKE),
    "rebound": bounds_words,
    "open": open_words,
    "transfer": transfer_words,
    "more": more_words,
    "use": used_words,
    "release": used_words,
    "firm": number_words,
    "commit": number_words,
    "abort": number_words,
    "expire": moment_words,
}


def command(chance: Chance, known: Known) -> str:
    """A command; now and then one of its words is an odd one."""
    verb = chance.one_of(known.verbs)
    if verb in OF_ORDERS and not known.desk.open and chance.share(80):
        verb = "open"
    words = [verb, *WORDS[verb](chance, known).split(" ")]
    if chance.share(4):
        words[chance.whole(1, len(words) - 1)] = chance.one_of(ODD_WORDS)
    return " ".join(words)


def view(chance: Chance, known: Known) -> str:
    """A view of a field or an order, now and then with an odd word."""
    words = ["order", number_words(chance, known)] if chance.share(50) else ["field", *name_of(chance, known)]
    if chance.share(4):
        words[chance.whole(1, len(words) - 1)] = chance.one_of(ODD_WORDS)
    return " ".join(words)


# ---- lines


def request(chance: Chance, known: Known) -> bytes:
    """Mostly a command under a new key; else a line that was said before, its command under a new key, or another command under
    its key."""
    kind, before = chance.whole(0, 99), known.lines[:-20:-1]
    if kind < 85 or not before:
        return known.key() + b" " + command(chance, known).encode()
    key, _, words = chance.one_of(before).partition(b" ")
    if kind < 91:
        return known.key() + b" " + words
    return key + b" " + (words if kind >= 95 else command(chance, known).encode())


def line(chance: Chance, known: Known) -> bytes:
    """A line that is said: mostly a request, else a view, or a line whose bytes are changed."""
    kind = chance.whole(0, 99)
    if kind >= 90:
        return known.say(f"? {view(chance, known)}".encode())
    text = request(chance, known)
    return known.say(changed(chance, text) if kind >= 84 else text)


def request_of(chance: Chance, known: Known, kind: str) -> bytes:
    """A request that a file of this kind says: a new one, one that was said before, or another under its key; but never the key
    of the last line."""
    last = key_of(known.lines[-1]) if known.lines else b""
    said = [line for line in known.lines if SAID[kind].fullmatch(line) and key_of(line) != last]
    if said and chance.share(10):
        return known.say(chance.one_of(said[:-20:-1]))
    # no records say an order of more lines
    words = " ".join([OF_FILES[kind], *WORDS[OF_FILES[kind]](chance, known).split(" ")[: 2 + 4 * LINES]])
    key = key_of(chance.one_of(said[:-20:-1])) if said and chance.share(4) else known.key()
    return known.say(key + b" " + words.encode())


def known_fields(chance: Chance, verbs: Sequence[str] = tuple(VERBS)) -> Known:
    """A desk with nothing but some fields. Their bounds are of three kinds: such as may be tight, such as leave room, or wide
    ones for large amounts."""
    names, kind = chance.one_of(FIELDS), chance.whole(0, 9)
    known = Known(names, verbs, LARGE_AMOUNTS if kind >= 8 else ())
    made = chance.whole(0, 6 * len(names))
    levels = [WIDE if kind >= 8 else chance.one_of(ROOMY if kind >= 4 else BOUNDS) for _ in range(3)]
    for number, name in enumerate(names[:made]):
        known.say(f"F{number} field {' '.join(name)} {levels[number % 3]}".encode())
    return known


def say_lines(chance: Chance, known: Known, average: int, most: int) -> None:
    chance.several(lambda chance: line(chance, known), average, most)


def script(chance: Chance, average: int = 50, most: int = 100) -> list[bytes]:
    """Fields, and then about so many lines. Most scripts have commands of all kinds, some scripts mostly one kind."""
    verbs = [*VERBS, *[chance.one_of(VERBS)] * 80] if chance.share(20) else VERBS
    known = known_fields(chance, verbs)
    say_lines(chance, known, average, most)
    return known.lines


# ---- bytes


def changed(chance: Chance, text: bytes) -> bytes:
    """The bytes with a few changes: some are put in, left out or doubled, or one bit of a byte is turned."""
    for _ in range(chance.whole(1, 4)):
        first = chance.whole(0, len(text))
        there = text[first : first + chance.whole(1, 12)]
        turned = bytes([there[0] ^ 1 << chance.whole(0, 7)]) + there[1:] if there else b""
        put = [chance.one_of(PIECES) + there, b"", there + there, turned][chance.whole(0, 3)]
        text = text[:first] + put + text[first + len(there) :]
    return text


def cut(chance: Chance, text: bytes) -> list[bytes]:
    """The text in pieces, cut anywhere."""
    cuts = sorted(chance.several(lambda chance: chance.whole(0, len(text)), 4, 8))
    return [text[first:end] for first, end in zip([0, *cuts], [*cuts, len(text)])]


def together(chance: Chance) -> int:
    """How many requests are carried out together: mostly a few, now and then as many as may be."""
    return chance.one_of([1, 2, 3, 7, chance.whole(1, 100), chance.whole(1, 1_000), 1_000])


def fed(text: bytes) -> str:
    """A script as it can be fed to the program: its lines, or where these have odd bytes a `printf` that writes them."""
    if re.fullmatch(rb"(?:[ -~]*\n)*", text):
        return text.decode()
    signs = {ord("\n"): "\\n", ord("'"): "'\\''", ord("\\"): "\\\\", ord("%"): "%%"}
    escaped = [signs.get(byte) or (chr(byte) if 32 <= byte < 127 else f"\\{byte:03o}") for byte in text]
    return f"printf '{''.join(escaped)}'"
