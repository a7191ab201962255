"""Seeded cases for a reader: valid texts, damaged ones, and rooms.

    cases(seed, count) yields (data, rooms)      rooms a list of eleven lengths
"""

import random

from records import TABLES
from spelling import spelled
from texts import NAMES, text

KEYWORDS = (
   
    b"v vt vn vp p l f curv curv2 surf parm trim hole end cstype deg g s usemtl"
    b" o mg mtllib usemap bevel c_interp d_interp lod shadow_obj trace_obj ctech stech"
    b" call csh con scrv sp bmat step fo bsp bzp cdc cdp res"
    b" maplib scmp V vx curv3 surface par g# # v#"
).split()
WORDS = (
    b"0", b"1", b"-1", b"2", b"3", b"-0", b"5.", b".5", b"+.5", b".", b"+", b"-.", b"1,5",
    b"nan", b"1e3", b"2000.0000004", b"2000.0000005", b"-2000.0000004", b"-2000.0000005", b"9999",
    b"-9999", b"0" * 64, b"0" * 65, b"9" * 65, b"." + b"0" * 63, b"1" * 64, b"+1",
    b"0000000001", b"00000000001", b"9999999999", b"4294967297", b"-4294967297", b"0000000000",
    b"1/1", b"1//1", b"1/1/1", b"1/", b"1//", b"1/1/", b"/1", b"1/2/3/4", b"1/0", b"1/x",
    b"-1/-1/-1", b"000", b"003", b"0003", b"20", b"21", b"999", b"1000", b"3.0", b"65535",
    b"65536", b"99999", b"100000", b"off", b"OFF", b"on", b"u", b"v", b"w", b"U", b"uv", b"rat",
    b"bezier", b"bspline", b"cardinal", b"taylor", b"bmatrix", b"Bezier", b"1#2", b"x" * 255,
    b"x" * 256, b"#", b"\\", b"\\\n", b"0.0000005",
    b"1e4", b"1E-3", b"1.e+3", b".5E-01", b"1.2e-05", b"-5e-7", b"4.9999999e-7", b"0e999", b"-0e-999", b"1e-999",
    b"1e999", b"2.0000000004e3", b"20000000004e-7", b"2.0000000005e3", b"49999999999999999999e-26",
    b"0.00000000000000000000000000005e22", b"0.0000000000000000000000000000000000001e40", b"1e", b"1e+", b"e3", b".e3",
    b"1e1000", b"1e1.0", b"1e3e3", b"0" * 61 + b"1e3", b"0" * 62 + b"1e3", b"9" * 60 + b"e999", b"9" * 61 + b"e999",
    b"1" + b"0" * 40 + b"e-45", b"7" * 30 + b"." + b"7" * 20 + b"e-027",
)
BYTES = bytes(range(256)) + b"\\\\\\\r\r\n\n\n##//..--++\t\t  0123456789uv"
EXTRA = (
    b"g " + NAMES[9] + b"x", b"sp 1", b"bmat u 1 2", b"vp 1", b"end", b"end x", b"parm",
    b"parm v", b"parm w 0 1", b"parm u 0", b"trim 0 1 1", b"hole 0 1", b"usemtl", b"usemtl a b",
    b"s", b"s off off", b"v 1 2", b"v 1 2 3 4 5", b"vt", b"vt 1 2 3 4", b"vn 1 2", b"vp",
    b"vp 1 2 3 4", b"p", b"l 1", b"f 1 2", b"curv 0 1 1", b"curv2 1", b"surf 0 1 0 1",
    b"cstype", b"cstype rat", b"cstype rat bmatrix", b"cstype foo bmatrix",
    b"cstype bmatrix bezier", b"deg", b"deg 1 2 3", b"deg 0", b"deg 21 1", b"s 65536",
    b"f 1/1 2 99", b"f 1/1/1 1//1 1", b"surf 0 1 0 1 1", b"curv 0 1 1 1", b"curv2 1 1",
    b"deg 3", b"deg 2 2", b"cstype rat bspline", b"cstype cardinal", b"o \x80", b"# \x80",
    b"call a.obj", b"maplib a",
)


def mix_patterns(rng, lines):
    """One corner of a line gets another pattern, its references still good."""
    before = {b"l": 1, b"f": 1, b"surf": 5}
    heads = [words for words in lines if len(words) > before.get(words[0], len(words))]
    if not heads:
        return
    words = rng.choice(heads)
    at = rng.randrange(before[words[0]], len(words))
    v = words[at].split(b"/")[0]
    words[at] = v + rng.choice((b"", b"/1", b"//1", b"/1/1"))


def word_damage(rng, lines):
    """Damage to the lines as words."""
    lines = [list(words) for words in lines]
    at = rng.randrange(len(lines))
    words = lines[at]
    style = rng.randrange(13)
    if style == 12:
        mix_patterns(rng, lines)
    elif style == 0:
        del lines[at]
    elif style == 1:
        lines.insert(rng.randint(0, len(lines)), words[:])
    elif style == 2:
        other = rng.randrange(len(lines))
        lines[at], lines[other] = lines[other], lines[at]
    elif style == 3:
        words[0] = rng.choice(KEYWORDS)
    elif style == 4:
        lines.insert(rng.randint(0, len(lines)), rng.choice(EXTRA).split())
    elif style == 5 and len(words) > 1:
        del words[rng.randrange(1, len(words))]
    elif style == 6:
        words.insert(rng.randint(1, len(words)), rng.choice(WORDS))
    elif style == 7 and len(words) > 2:
        i, j = rng.sample(range(1, len(words)), 2)
        words[i], words[j] = words[j], words[i]
    elif style == 8 and len(words) > 1:
        del words[rng.randrange(1, len(words)):]
    elif len(words) > 1:
        words[rng.randrange(1, len(words))] = rng.choice(WORDS)
    return lines


def body_damage(rng, lines):
    """Damage aimed at what is only found on a body's element line or its end."""
    lines = [list(words) for words in lines]
    heads = [i for i, words in enumerate(lines) if words[0] in (b"curv", b"curv2", b"surf")]
    parms = [i for i, words in enumerate(lines) if words[0] == b"parm" and len(words) > 2]
    forces = [i for i, words in enumerate(lines) if words[0] in (b"cstype", b"deg")]
    style = rng.randrange(9)
    if style == 0 and forces:
        del lines[rng.choice(forces)]
    elif style == 1 and parms:
        del lines[rng.choice(parms)]
    elif style == 2 and parms:
        words = lines[rng.choice(parms)]
        words.append(words[-1])
    elif style == 3 and parms:
        words = lines[rng.choice(parms)]
        i, j = rng.randrange(2, len(words)), rng.randrange(2, len(words))
        words[i], words[j] = words[j], words[i]
    elif style == 4 and heads:
        words = lines[rng.choice(heads)]
        if words[0] != b"curv2":
            words[rng.randrange(1, 3)] = rng.choice((b"0", b"1", b"2000", b"-2000", words[1]))
    elif style == 5 and heads:
        words = lines[rng.choice(heads)]
        words.append(words[-1])
    elif style == 6 and heads:
        at = rng.choice(heads)
        lines[at:at] = [[b"vp", b"1"]]
        lines[at + 1][-1] = b"-1"
    elif style == 7 and parms:
        at = rng.choice(parms)
        lines[at] = lines[at][:2] + [lines[at][2]] * (len(lines[at]) - 2)
    elif style == 8 and parms:
        words = lines[rng.choice(parms)]
        first = rng.randrange(2, len(words))
        for at in range(first, min(len(words), first + rng.randint(2, 5))):
            words[at] = words[first]
    return lines


def byte_damage(rng, data):
    out = bytearray(data)
    for _ in range(rng.choice((1, 1, 1, 2, 5))):
        if not out:
            out.append(rng.choice(BYTES))
            continue
        at = rng.randrange(len(out))
        style = rng.randrange(6)
        if style == 0:
            del out[at]
        elif style == 1:
            out.insert(at, rng.choice(BYTES))
        elif style == 2:
            out[at] = rng.choice(BYTES)
        elif style == 3:
            out[at] ^= 1 << rng.randrange(8)
        elif style == 4:
            del out[at:at + rng.randint(1, 20)]
        elif rng.random() < 0.3:
            del out[at:]
    return bytes(out)


def rooms_for(rng, needs):
    """Just right, a little more, or one table too small."""
    style = rng.random()
    rooms = [needs[table] for table in TABLES]
    if style < 0.25:
        return rooms
    if style < 0.80:
        return [room + rng.randint(0, 40) for room in rooms]
    needed = [i for i, room in enumerate(rooms) if room]
    if not needed:
        return rooms
    at = rng.choice(needed)
    shorts = (1, 1, 1, 2, rooms[at], rng.randint(1, rooms[at]))
    rooms[at] -= min(rooms[at], rng.choice(shorts))
    return rooms


def cases(seed, count):
    rng = random.Random(seed)
    before = []
    for _ in range(count):
        lines, needs = text(rng)
        style = rng.random()
        if style < 0.50:
            yield spelled(rng, lines), rooms_for(rng, needs)
            continue
        rooms = [needs[table] + 60 for table in TABLES]
        if rng.random() < 0.1:
            rooms = rooms_for(rng, needs)
        if style < 0.62:
            data = byte_damage(rng, spelled(rng, lines))
        elif style < 0.65:
            at = rng.randint(0, len(lines))
            data = spelled(rng, lines[:at] + before[rng.randint(0, len(before)):])
        else:
            for _ in range(rng.choice((1, 1, 1, 2, 3))):
                if lines and style < 0.82:
                    lines = word_damage(rng, lines)
                elif lines:
                    lines = body_damage(rng, lines)
            data = spelled(rng, lines)
        before = lines
        yield data, rooms
