"""Seeded spellings: a value as a number's letters, lines as bytes."""

BETWEEN = (b"# a comment \\", b"", b"  \t", b"#\x80\x00\rv 1", b"\\\n")


def letters(rng, millionths):
    """One of the many spellings whose value rounds to `millionths`."""
    size = abs(millionths)
    style = rng.random()
    tail = ""
    if style < 0.15:
        tail = rng.choice(("4999999999", "0", "000000001", "49", "1234"))
    elif style < 0.25 and size > 0:
        size -= 1
        tail = rng.choice(("5", "50000000000", "9999999999", "7", "500000001"))
    whole, rest = divmod(size, 1_000_000)
    fraction = f"{rest:06d}" + tail
    if not tail and rng.random() < 0.6:
        fraction = fraction.rstrip("0")
    start = str(whole)
    if whole == 0 and fraction and rng.random() < 0.3:
        start = ""
    elif rng.random() < 0.05:
        start = "0" * rng.randint(1, 30) + start
    point = "." if fraction or rng.random() < 0.1 else ""
    if millionths < 0 or (millionths == 0 and rng.random() < 0.1):
        sign = "-"
    else:
        sign = "+" if rng.random() < 0.05 else ""
    return (sign + exponential(rng, start + point + fraction)).encode()


def exponential(rng, plain):
    """The same value, its point moved and an exponent written for it, now and then."""
    if rng.random() < 0.85:
        return plain
    whole, _, fraction = plain.partition(".")
    digits = whole + fraction
    if rng.random() < 0.2:
        digits = "0" * rng.randint(0, 12) + digits
    place = rng.choice((0, 1, len(digits), rng.randint(0, len(digits))))
    power = len(whole) + len(digits) - len(whole + fraction) - place
    sign = "-" if power < 0 or (power == 0 and rng.random() < 0.3) else rng.choice(("", "+"))
    shown = f"{abs(power):0{rng.choice((1, 1, 2, 3))}d}"
    point = "." if place < len(digits) or rng.random() < 0.3 else ""
    word = digits[:place] + point + digits[place:] + rng.choice("eE") + sign + shown
    return word if len(word) < 64 else plain


def coordinate(rng):
    style = rng.random()
    if style < 0.05:
        return rng.choice((2_000_000_000, -2_000_000_000, 1_999_999_999))
    if style < 0.10:
        return rng.choice((0, 1, -1))
    if style < 0.5:
        return rng.randint(-20, 20) * 500_000
    if style < 0.6:
        return rng.randint(-2_000_000_000, 2_000_000_000)
    return rng.randint(-9_000_000, 9_000_000)


def spelled(rng, lines):
    """The lines as bytes, in plain or in wild clothes."""
    if rng.random() < 0.3:
        return b"".join(b" ".join(words) + b"\n" for words in lines)
    ending = rng.choice((b"\n", b"\n", b"\r\n", None))
    wild = rng.random() < 0.5
    out = []
    for words in lines:
        chosen = ending or rng.choice((b"\n", b"\r\n"))
        if rng.random() < 0.1:
            out.append(rng.choice(BETWEEN) + chosen)
        indent = rng.choice((b"", b"", b"    ", b"\t", b"\\\n")) if wild else b""
        parts = [indent]
        for i, word in enumerate(words):
            if i:
                parts.append(blank(rng) if wild else b" ")
            parts.append(word)
        if wild and rng.random() < 0.2:
            parts.append(rng.choice((b" ", b" # tail \\", b"\t#\r#", b" \\\r\n", b"\\\n# x")))
        out.append(b"".join(parts) + chosen)
    joined = b"".join(out)
    if rng.random() < 0.2 and joined.endswith(b"\n"):
        joined = joined[:-2] if joined.endswith(b"\r\n") else joined[:-1]
    return joined


def blank(rng):
    return rng.choice((b" ", b" ", b" ", b"  ", b"\t", b" \\\n", b"\\\r\n", b"\\\n\\\n ", b"\t \t"))
