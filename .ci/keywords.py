"""Prints docs/KEYWORDS.md from the constant tables of crates/keywords/src/lib.rt.

    python3 .ci/keywords.py > docs/KEYWORDS.md

.ci/papers.py holds the page against what is printed here.
"""

import re
from pathlib import Path

ROOT = Path(__file__).resolve().parent.parent
SOURCE = ROOT / "crates" / "keywords" / "src" / "lib.rt"


def rows_of(text, table):
    """The rows of a constant table: spelling and letter."""
    body = re.search(rf'static {table}: \[u8; \d+\] = \*b"\\\n(.*?)";', text, re.S)[1]
    rows = [re.fullmatch(r" {4}(\S+) +(\S)\\?", line) for line in body.split("\n")]
    return [(row[1], row[2]) for row in rows]


def kinds_of(text, function):
    """What each letter stands for, in words."""
    body = re.search(rf"(?ms)^fn {function}\(.*?^}}", text)[0]
    named = {letter: re.findall(r"::(\w+)", arm) for letter, arm in re.findall(r"b'(.)' => (.*),", body)}
    return {letter: re.sub(r"(?<=[a-z])(?=[A-Z])", " ", " ".join(reversed([n for n in names if n != "Carried"]))).lower() for letter, names in named.items()}


def table(text, rows, function, head):
    kinds = kinds_of(text, function)
    lines = [f"| row | {head} | kind |", "|---|---|---|"]
    return lines + [f"| {i} | `{word}` | {kinds[letter]} |" for i, (word, letter) in enumerate(rows_of(text, rows))]


def page():
    text = SOURCE.read_text(encoding="utf-8")
    lines = [
        "# The keywords",
        "",
        "To be held against the appendix with a pencil. Printed from the two constant tables of `crates/keywords/src/lib.rt`, the only place in the code",
        "where these words are spelled, by `.ci/keywords.py`; the gate fails where this page is another. The keywords stand in the order of the appendix's",
        '"File structure", and then as the appendix comes to them (DECISIONS 7). A statement that is passed over has only its bytes looked at; one that is',
        "refused gives 4; a word that is in no row gives 3.",
        "",
        "`keyword_row` walks this table from row 0 on. Proved of it: a word finds a row exactly when it is that row's spelling, byte by byte; it finds none",
        "exactly when it is no row's; no two rows share a spelling (docs/PROMISES.md). `kuhlabires_keyword` and `kuhlabires_argument` hand out a row's",
        "spelling by its number.",
        "",
        *table(text, "KEYWORDS", "statement_of", "keyword"),
        "",
        "## The fixed words after a keyword",
        "",
        "`rat` and the types follow `cstype`, the directions `parm`, `off` follows `s`. A direction is another word than the keyword `v` (DECISIONS 292).",
        "",
        *table(text, "ARGUMENTS", "argument_of", "word"),
        "",
    ]
    return "\n".join(lines)


if __name__ == "__main__":
    print(page(), end="")
