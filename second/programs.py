"""The proved programs tidy and points, run and compared.

    rt ci && python3 second/programs.py

tidy: on every stored case and at its own limits, against the second tidier, whose
answers for them are stored (expected.txt, tidy/, check.py). points: against the
second sampler, on every element of the examples. Both: where standard input cannot
be read, at its start or in its middle, or standard output cannot be written, nothing
is printed as if it were the answer, and standard error says what failed.
"""

import os
import subprocess
import sys

from check import CASES, EXAMPLES, PROGRAM_TEXTS, Tally
from curves import millionths
from reader import read
from records import Read
from sampler import RefusedPoint, run_on_curve
from tidier import PROGRAM_ROOM, printed

CRATES = EXAMPLES.parent / "crates"
STEPS = (0, 1, 16, 65_536, 65_537)


UNREAD = b"standard input could not be read: "
UNWRITTEN = b"standard output could not be written: "


def built(program):
    """The proved program as `rt ci` leaves it, and `rt run` in its crate's folder too."""
    return CRATES / program / "out" / program


def written(program, data, *arguments):
    """What the program writes; with what it says on standard error, if it says anything."""
    run = subprocess.run(
        [built(program), *map(str, arguments)], input=data, capture_output=True, check=True
    )
    return (run.stdout, run.stderr) if run.stderr else run.stdout


def said(program, source, *, to=subprocess.PIPE, closed=""):
    """What the program writes to standard output and to standard error, on the descriptor `source`."""
    command = ["sh", "-c", f'exec "$0" "$@" {closed}', built(program), "1", "1"]
    run = subprocess.run(command, stdin=source, stdout=to, stderr=subprocess.PIPE, check=False)
    return run.stdout or b"", run.stderr


def broken_off(text):
    """A descriptor that gives the text and then fails: a terminal whose other end was closed."""
    ours, theirs = os.openpty()
    os.write(theirs, text)
    os.close(theirs)
    return ours


def check_failures(tally, program):
    plate = (EXAMPLES / "plate.obj").read_bytes()
    sources = (
        ("a directory", os.open(CASES, os.O_RDONLY), b"", UNREAD + b"Is a directory\n"),
        ("a text that breaks off", broken_off(b"v 0 0 0\n"), b"", UNREAD + b"Input/output error\n"),
        ("no descriptor that reads", os.open(os.devnull, os.O_WRONLY), b"", UNREAD + b"Bad file descriptor\n"),
        ("nothing", os.open(os.devnull, os.O_RDONLY), written(program, b"", 1, 1), b""),
    )
    for label, source, out, error in sources:
        tally.hold(f"{program} on {label}", said(program, source), (out, error))
        os.close(source)
    with open(EXAMPLES / "plate.obj", "rb") as text, open("/dev/full", "wb") as full:
        tally.hold(
            f"{program} to a full disk", said(program, text, to=full), (b"", UNWRITTEN + b"No space left on device\n")
        )
    with open(EXAMPLES / "plate.obj", "rb") as text:
        tally.hold(
            f"{program} to a closed output", said(program, text, closed=">&-"), (b"", UNWRITTEN + b"Bad file descriptor\n")
        )
    with open(EXAMPLES / "plate.obj", "rb") as text:
        tally.hold(f"{program} on a file", said(program, text), (written(program, plate, 1, 1), b""))


def points(data, element, steps):
    """What the program points must write."""
    answer = read(data, [PROGRAM_ROOM] * 11)
    if not isinstance(answer, Read):
        return f"refused {answer.number} at {answer.place}\n".encode()
    run = run_on_curve(answer.used, answer.tables, element, steps, [0] * 196_611, 0)
    if isinstance(run, RefusedPoint):
        return f"refused {run.number}\n".encode()
    axes = run.numbers // (steps + 1)
    numbers = [millionths(number) for number in run.points[:run.numbers]]
    return "".join(
        " ".join(numbers[at:at + axes]) + "\n" for at in range(0, run.numbers, axes)
    ).encode()


def main():
    tally = Tally()
    for path in sorted(CASES.rglob("*.obj")):
        data = path.read_bytes()
        tally.hold(f"tidy {path.name}", written("tidy", data), printed(data))
    for label, data, wanted in PROGRAM_TEXTS:
        tally.hold(f"tidy on {label}", written("tidy", data), wanted)
    for path in sorted(EXAMPLES.glob("*.obj")):
        data = path.read_bytes()
        for element in range(4):
            for steps in STEPS:
                tally.hold(
                    f"points {path.name} {element} {steps}",
                    written("points", data, element, steps), points(data, element, steps),
                )
    tally.hold("points without arguments", written("points", b""), b"refused 17\n")
    for program in ("tidy", "points"):
        check_failures(tally, program)
    print(f"programs: {tally.passed} passed, {tally.failed} failed")
    return 1 if tally.failed else 0


if __name__ == "__main__":
    sys.exit(main())
