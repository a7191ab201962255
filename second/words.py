"""Bytes to joined lines of words, and the forms of a word.

A word is a pair (place, letters).  A fault is raised at the word's place.
"""

import re
from fractions import Fraction
from math import floor

from records import LARGEST, Fault

# A comment is tried before a word, so that a # opens one only where a word
# would begin: inside a word the word's own rule has already taken it.  A join
# is a blank, and a word takes the blanks behind it along.
TOKEN = re.compile(
    rb"(?P<comment>\#[^\n]*)"
    rb"|(?P<word>[!-\[\]-~]+)(?:[\t ]|\\\r?\n)*"
    rb"|(?P<ending>\r?\n)"
    rb"|(?P<blanks>(?:[\t ]|\\\r?\n)+)"
)
NUMBER = re.compile(rb"([+-]?)([0-9]*)\.?([0-9]*)(?:[eE]([+-]?[0-9]{1,3}))?")
REFERENCE = re.compile(rb"-?[0-9]{1,10}")
DEGREE = re.compile(rb"[0-9]{1,3}")
SMOOTHING = re.compile(rb"[0-9]{1,5}")


def joined_lines(data):
    """The words of each joined line that has any, in order.

    A byte that is not allowed is raised before its line is handed out, so it
    goes before every other fault of that line and after every earlier line's.
    """
    words = []
    place, end = 0, len(data)
    token = TOKEN.match
    while place < end:
        found = token(data, place)
        if found is None:
            raise Fault(2, place)
        sort = found.lastgroup
        if sort == "word":
            words.append((place, found.group("word")))
        elif sort == "ending" and words:
            yield words
            words = []
        place = found.end()
    if words:
        yield words


def names_in(run):
    """The names of a group run: its words, blanks and joins left out."""
    return [found.group("word") for found in TOKEN.finditer(run) if found.lastgroup == "word"]


def number(word):
    """A number in millionths: the exact decimal value, rounded once, ties away
    from zero.  It may end in e or E, an optional sign and one to three digits."""
    place, letters = word
    form = NUMBER.fullmatch(letters) if len(letters) <= 64 else None
    if form is None:
        raise Fault(6, place)
    sign, whole, fraction, exponent = form.groups()
    if not whole and not fraction:
        raise Fault(6, place)
    value = Fraction(int(whole + fraction), 10 ** len(fraction)) * Fraction(10) ** int(exponent or 0)
    millionths = floor(value * 1_000_000 + Fraction(1, 2))
    if millionths > LARGEST:
        raise Fault(7, place)
    return -millionths if sign == b"-" else millionths


def reference_form(place, letters):
    """The whole number that a reference's letters write."""
    if REFERENCE.fullmatch(letters) is None:
        raise Fault(6, place)
    return int(letters)


def refer(place, k, count):
    """k is the k-th so far, -k the k-th from the last of `count`."""
    if 1 <= k <= count:
        return k
    if -count <= k <= -1:
        return count + 1 + k
    raise Fault(8, place)


def reference(word, count):
    place, letters = word
    return refer(place, reference_form(place, letters), count)


def corner(word, patterns, counts):
    """v, vt, vn of a corner word, 0 for none.

    `patterns` holds the allowed (has vt, has vn); `counts` how many v, vt, vn
    there are so far.  The whole form is looked at before any reference.
    """
    place, letters = word
    parts = letters.split(b"/")
    if len(parts) > 3:
        raise Fault(6, place)
    has_vt = len(parts) == 2 or (len(parts) == 3 and parts[1] != b"")
    has_vn = len(parts) == 3
    if (has_vt, has_vn) not in patterns:
        raise Fault(6, place)
    v = reference_form(place, parts[0])
    vt = reference_form(place, parts[1]) if has_vt else None
    vn = reference_form(place, parts[2]) if has_vn else None
    return (
        refer(place, v, counts[0]),
        refer(place, vt, counts[1]) if has_vt else 0,
        refer(place, vn, counts[2]) if has_vn else 0,
    )


def degree(word):
    place, letters = word
    if DEGREE.fullmatch(letters) is None:
        raise Fault(6, place)
    value = int(letters)
    if not 1 <= value <= 20:
        raise Fault(7, place)
    return value


def smoothing(word):
    place, letters = word
    if letters == b"off":
        return 0
    if SMOOTHING.fullmatch(letters) is None:
        raise Fault(6, place)
    value = int(letters)
    if value > 65_535:
        raise Fault(7, place)
    return value


def name(word):
    """A name is any word of 1 to 255 bytes; the answer is its run."""
    place, letters = word
    if len(letters) > 255:
        raise Fault(6, place)
    return place, len(letters)
