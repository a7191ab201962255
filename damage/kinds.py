"""Seeded damage: the kinds of damaged text, and lengths to lend.

    damaged(rng) -> (kind, text)
    big(rng), long(rng) yield (kind, text, rooms, buffer), alike(rng) (name, text)

The last three go up to the limit of 16,777,216 bytes; big goes one past it.
Run as a script it prints the words for the fuzzer's dictionary.
"""

import stream                               # puts second/ on the path

from curves import text as one_curve
from damage import BYTES, EXTRA, KEYWORDS, WORDS, body_damage, byte_damage, word_damage
from records import TABLES, TEXT_LIMIT, WIDTHS, Fault
from spelling import spelled
from statements import Reader
from texts import text
from words import joined_lines

ROOT = stream.SECOND.parent
FILES = sorted(
    path.read_bytes()
    for folder in ("second/cases", "examples", "damage/corpus")
    for path in (ROOT / folder).rglob("*.obj")
    if path.stat().st_size < 4_096
)


def whole(rng):
    """A text to damage: a stored file, a seeded curve or surface, a seeded text."""
    style = rng.random()
    if style < 0.25:
        return rng.choice(FILES)
    if style < 0.5:
        kind = rng.choice(("curv", "curv2", "surf"))
        directions = 2 if kind == "surf" else 1
        degrees = [rng.choice((1, 2, 3, 3, rng.randint(1, 20))) for _ in range(directions)]
        return one_curve(rng, kind, rng.choice(("bezier", "bspline")), degrees)[0]
    return spelled(rng, text(rng).lines)


def as_lines(rng):
    lines = [line.split() for line in whole(rng).split(b"\n")]
    return [words for words in lines if words] or [[b"v", b"1"]]


def places(rng, data, most=6):
    return sorted((rng.randint(0, len(data)) for _ in range(rng.randint(1, most))), reverse=True)


def inserted(rng, data, pieces):
    for at in places(rng, data):
        data = data[:at] + rng.choice(pieces) + data[at:]
    return data


# The kinds

def undamaged(rng):
    return whole(rng)


def bytes_mutated(rng):
    return byte_damage(rng, whole(rng))


def words_mutated(rng):
    return spelled(rng, word_damage(rng, as_lines(rng)))


def bodies_mutated(rng):
    return spelled(rng, body_damage(rng, text(rng).lines))


def truncated(rng):
    data = whole(rng)
    return data[:rng.randint(0, len(data))] if rng.random() < 0.7 else data[rng.randint(0, len(data)):]


def spliced(rng):
    one, other = whole(rng), whole(rng)
    i, j = rng.randint(0, len(one)), rng.randint(0, len(other))
    if rng.random() < 0.5:
        return one[:i] + other[j:]
    return one[:i] + other[j:j + rng.randint(0, 80)] + one[i:]


def blocks_repeated(rng):
    return whole(rng) * rng.randint(2, 6)


def random_bytes(rng):
    return rng.randbytes(rng.choice((0, 1, 2, 3, 9, 60, 400)))


def random_letters(rng):
    return bytes(rng.choice(BYTES) for _ in range(rng.choice((1, 5, 40, 200))))


def random_words(rng):
    lines = []
    for _ in range(rng.randint(1, 12)):
        if rng.random() < 0.3:
            lines.append(rng.choice(EXTRA).split())
        else:
            lines.append([rng.choice(KEYWORDS), *rng.choices(WORDS, k=rng.randint(0, 6))])
    return spelled(rng, lines)


def endings_mixed(rng):
    endings = rng.choice((
        (b"\r\n",), (b"\n", b"\r\n"), (b"\n", b"\r\n", b"\n", b"\r\n", b"\r"), (b"\n\r", b"\n"),
    ))
    return b"".join(line + rng.choice(endings) for line in whole(rng).split(b"\n"))


def joins_inserted(rng):
    return inserted(rng, whole(rng), (b"\\\n", b"\\\r\n", b" \\\n ", b"\\", b"\\\r", b"\\ \n", b"\\\n\\\n"))


def joins_for_blanks(rng):
    return b"".join(
        rng.choice((b" \\\n", b"\\\r\n", b" ")) if byte == 32 and rng.random() < 0.3 else bytes((byte,))
        for byte in whole(rng)
    )


def strange_bytes(rng):
    bytes_ = (b"\0", b"\x7f", b"\x80", b"\xff", b"\x0b", b"\x1a", b"\xef\xbb\xbf", b"#\0\xff\r")
    return inserted(rng, whole(rng), bytes_)


def long_words(rng):
    lines = as_lines(rng)
    words = rng.choice(lines)
    size = rng.choice((63, 64, 65, 255, 256, 257, 4_096, 70_000))
    at = rng.randrange(len(words))
    words[at] = rng.choice((b"0", b"9", b"x", b"/", b"-", b".")) * (size - 1) + rng.choice((b"1", b"x", b"."))
    return spelled(rng, lines)


def long_lines(rng):
    lines = as_lines(rng)
    words = rng.choice(lines)
    words += [rng.choice((words[-1], b"1", b"-1", b"0.5"))] * rng.choice((20, 255, 3_000))
    return spelled(rng, lines)


def long_comments(rng):
    comment = b"#" + bytes(range(11, 256)) * rng.choice((1, 20, 300)) + b"\n"
    return inserted(rng, whole(rng), (comment, b" # \\\n"))


KINDS = (
    undamaged, undamaged, undamaged, bytes_mutated, words_mutated, bodies_mutated, truncated, spliced,
    blocks_repeated, random_bytes, random_letters, random_words, endings_mixed, joins_inserted,
    joins_for_blanks, strange_bytes, long_words, long_lines, long_comments,
)


def damaged(rng):
    kind = rng.choice(KINDS)
    return kind.__name__, kind(rng)


# Lengths to lend

def needed(data):
    """The entries of each table that the lines before the first fault need."""
    reader = Reader(dict.fromkeys(TABLES, 1 << 40))
    try:
        for words in joined_lines(data):
            reader.line(words)
    except Fault:
        pass
    needs = {name: len(table) for name, table in reader.tables.items()}
    if reader.body is not None:
        needs["bodies"] += WIDTHS["bodies"]
        needs["ranges"] += WIDTHS["ranges"]
    return [needs[name] for name in TABLES]


def rooms(rng, needs):
    style = rng.randrange(9)
    if style == 0:
        return [0] * len(needs)
    if style == 1:
        return [need + 1 for need in needs]
    if style == 2:
        return [need + rng.randrange(WIDTHS[name]) for name, need in zip(TABLES, needs)]
    if style == 3:
        return [rng.randint(0, 2 * need + 9) for need in needs]
    if style == 4:
        return [need + 60 for need in needs]
    found = list(needs)
    if style in (5, 6) and any(found):
        at = rng.choice([i for i, need in enumerate(found) if need])
        found[at] -= rng.choice((1, 1, min(found[at], WIDTHS[TABLES[at]]), found[at]))
    return found


def buffer(rng, length):
    """A length to lend for a tidy text of that length."""
    return rng.choice((0, max(0, length - 1), length, length, length + 1, length + rng.randint(0, 99)))


# Big texts

def filled(start, end, size):
    """A text of that size: its start, comments of 65,536 bytes, its end."""
    room = size - len(start) - len(end)
    comment = b"#" + b"x\0\xff\\\r " * 10_922 + b"ab\n"
    comments = comment * (room // len(comment))
    rest = room - len(comments)
    return start + comments + (b"#" * (rest - 1) + b"\n" if rest else b"") + end


CURVE = b"v 0 0 0\nv 1 1 1\ncstype bezier\ndeg 1\ncurv 0 1 1 2\nparm u 0 1\n"
MESH = b"v 0 0 0\nv 1.5 0 0\nv 1.5 .25 0\nvt 0 .5\nvn 0 0 1\ng top\nf -3/-1/-1 -2/-1/-1 -1/-1/-1\n"
TRIMMED = (
    b"vp 0 0\nvp 1 0\nvp 1 1\ncstype bspline\ndeg 1 1\ncurv2 -3 -2 -1\nparm u 0 0 1 2 2\nend\n"
    b"v 0 0 0\nv 1 0 0\nv 0 1 0\nv 1 1 9\nsurf 0 1 0 1 -4 -3 -2 -1\nparm u 0 0 1 1\nparm v 0 0 1 1\n"
    b"trim 0 2 -1\nhole 0 1 -1 1 2 -1\nend\n"
)
PLENTY = 4_096


def big(rng):
    plenty = [PLENTY] * len(TABLES)
    for size in (TEXT_LIMIT - 1, TEXT_LIMIT, TEXT_LIMIT + 1):
        yield f"comments, {size} bytes", filled(MESH, MESH, size), plenty, PLENTY
    for end in (b"f 1 1 2", b"v 1 2 3 \x80", b"v 1 2 3\r", b"v 1 2 3\\", b"end", b"f 1 1 1"):
        yield f"comments, then {end!r}", filled(b"v 0 0 0\n", end, TEXT_LIMIT), plenty, PLENTY
    yield "comments in a body, no end", filled(CURVE, b"", TEXT_LIMIT), plenty, PLENTY
    yield "comments in a body, end", filled(CURVE, b"end\n", TEXT_LIMIT), plenty, PLENTY
    yield "no room after comments", filled(CURVE, b"end\n", TEXT_LIMIT), [0, *plenty[1:]], PLENTY
    for start in (b"", b"v ", b"g ", b"usemtl ", b"o ", b"s ", b"deg ", b"v 0 0 0\np "):
        word = rng.choice((b"0", b"x", b"9", b"-"))
        yield f"{start!r} and one long word", start + word * (TEXT_LIMIT - len(start)), plenty, PLENTY
    yield "zero bytes in a comment", b"#" + bytes(TEXT_LIMIT - 1), plenty, PLENTY
    yield "zero bytes", bytes(TEXT_LIMIT), plenty, PLENTY
    yield "noise", rng.randbytes(TEXT_LIMIT), plenty, PLENTY
    yield "noise in a comment", b"#" + rng.randbytes(TEXT_LIMIT - 1).replace(b"\n", b"\r"), plenty, PLENTY


def long(rng):
    """Texts that take the Python reader seconds."""
    plenty = [PLENTY] * len(TABLES)
    yield "blanks", b" \t" * (TEXT_LIMIT // 2), plenty, PLENTY
    yield "joins", b"v\\\n 1" + b"\\\n" * (TEXT_LIMIT // 2 - 8) + b" 2 3\n", plenty, PLENTY
    yield "joins with CR", b"v\\\r\n 1" + b"\\\r\n" * (TEXT_LIMIT // 3 - 8) + b" 2 3\n", plenty, PLENTY
    lines = TEXT_LIMIT // 30                # of "vt 0.000000 0.000000 0.000000"
    rest = TEXT_LIMIT - 30 * lines
    for more in (0, 1):
        data = b"vt 10\n" * (rest + more) + b"vt 0\n" * (lines - rest - more)
        yield f"a tidy text of {TEXT_LIMIT + more} bytes", data, needed(data), TEXT_LIMIT + 5
    for block in (MESH, CURVE + b"end\n"):
        data = block * (1_500_000 // len(block))
        needs = needed(data)
        yield "a block repeated", data, needs, 8_000_000
        needs[rng.choice([i for i, need in enumerate(needs) if need])] -= 1
        yield "a block repeated, one entry short", data, needs, 8_000_000
    data = b"v 1 2 3\nf" + b" 1" * 700_000
    yield "one long line", data, needed(data), 3_000_000
    yield "one long line, its last word to nothing", data + b" 2", needed(data), 3_000_000
    data = b"g" + b" name" * 200_000 + b"\nv 1 2 3\np 1\n"
    yield "one long group", data, needed(data), 3_000_000


def alike(rng):
    """Texts too big for second/, which the fuzz target holds against themselves. The
    first has a tidy text over the limit."""
    for name, block, size in (
        ("mesh", MESH, TEXT_LIMIT), ("mesh", MESH, TEXT_LIMIT // 3), ("curves", CURVE + b"end\n", 500_000),
        ("trimmed", TRIMMED, 200_000),
    ):
        data = block * (size // len(block))
        yield f"{name}-{size}", data
        at = rng.randrange(len(data))
        byte = rng.choice((b"\0", b"x", b"\\", b"\n", b"9"))
        yield f"{name}-{size}-damaged", data[:at] + byte + data[at + 1:]


# The fuzzer's dictionary

if __name__ == "__main__":
    for word in (*KEYWORDS, *WORDS, *EXTRA, b"\r\n", b"\\\r\n", b"\nend\n", b"\nparm u 0 1\n"):
        print('"' + "".join(f"\\x{byte:02x}" for byte in word) + '"')
