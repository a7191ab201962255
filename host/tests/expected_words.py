"""What the command says in the same words everywhere: numbers, refusals. Puts second/ on the path of what imports it."""

import sys
from pathlib import Path

HERE = Path(__file__).resolve().parent
ROOT = HERE.parent.parent
sys.path.insert(0, str(ROOT / "second"))


def words_of_refusals():
    rows = [line.split(" | ") for line in (ROOT / "docs/REFUSALS.md").read_text().splitlines() if line.startswith("| ")]
    return {int(row[0][2:]): row[1].rstrip(" |") for row in rows if row[0][2:].isdigit()}


WORDS = words_of_refusals()


def stored_messages():
    """What is told besides, by the file or by the element asked for: stored, and looked through by hand."""
    rows = [line.split(" | ", 1) for line in (HERE / "messages.txt").read_text().splitlines() if line and not line.startswith("#")]
    return {key: message for key, message in rows}


MESSAGES = stored_messages()


def message_of(key):
    return f"  {MESSAGES[key]}\n" if key in MESSAGES else ""


def decimal(number):
    sign = "-" if number < 0 else ""
    return f"{sign}{abs(number) // 1_000_000}.{abs(number) % 1_000_000:06d}"


def point(numbers):
    return " ".join(decimal(number) for number in numbers)


def visible(data):
    return "".join(chr(b) if 32 <= b <= 126 or b == 9 else "?" for b in data)


def refused(name, text, answer):
    """The lines for a refusal; those of the cases are short, so none is cut."""
    number, place = answer
    reason = WORDS[number]
    if number == 10:
        reason = reason.split("; ")[place == len(text)]
    line = text.count(b"\n", 0, place)
    start = sum(len(each) + 1 for each in text.split(b"\n")[:line])
    whole = text.split(b"\n")[line].removesuffix(b"\r")
    blanks = "".join("\t" if b == 9 else " " for b in text[start:place])
    return (
        f"{name}:{line + 1}:{place - start + 1}: refused {number} at {place}: {reason}\n{message_of(name)}"
        f"{line + 1:>5} | {visible(whole)}\n      | {blanks}^\n"
    )


def counted(many, what):
    return f"{many} {what}" + ("" if many == 1 else "s")


def runs_of(numbers):
    """The numbers, rising, with neighbours as first-last."""
    runs = []
    for number in numbers:
        if runs and runs[-1][1] + 1 == number:
            runs[-1][1] = number
        else:
            runs.append([number, number])
    return " ".join(f"{a}" if a == b else f"{a}-{b}" for a, b in runs)
