"""python3 -m wrong_bodies edits|controls [CRATE..] [-- WORD..]: tries the edits of these crates, or of all, or their controls;
with words, only those whose names have one of them. `some` in place of `edits` tries one edit of each function. `--proved FOLDER`
before the crates: there `rt ci` has just proved all of them, as they are."""

import os
import sys

# no folder of compiled modules is made beside the sources
sys.dont_write_bytecode = True

from wrong_bodies.runs import crates_of, named, one_of_each, run

TOP = os.path.dirname(os.path.dirname(os.path.dirname(os.path.abspath(__file__))))


def main() -> int:
    which, *words = sys.argv[1:]
    proved = words[1] if words[:1] == ["--proved"] else None
    words = words if proved is None else words[2:]
    at = words.index("--") if "--" in words else len(words)
    crates, parts = words[:at], words[at + 1 :]
    known = crates_of(TOP)
    for name in crates:
        if name not in known:
            print(f"check: crates.txt has no crate {name}", file=sys.stderr)
            return 2
    choose = one_of_each if which == "some" else named(parts)
    passed, failed = run(TOP, crates or known, "control" if which == "controls" else "new", choose, proved)
    if parts and not passed + failed:
        print("check: no edit has such a name", file=sys.stderr)
        return 2
    print(f"{passed} passed, {failed} failed")
    return int(failed > 0)


if __name__ == "__main__":
    sys.exit(main())
