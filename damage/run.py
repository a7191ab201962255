"""The proved library under damaged files, held against second/.

    python3 host/library.py && python3 damage/run.py SEED COUNT [LONG]

The stored calls on points; then every stored case and example, and COUNT seeded
texts, damaged in the ways of kinds.py, are read, in the rooms that the library finds for
them too, tidied and asked after as questions.py says. Then texts of
16,777,216 bytes and about; LONG adds those that take second/ seconds each, and
some that are held against themselves alone, by the fuzz target.

drive.c makes the calls. Compared, byte by byte: each answer, each table, each
buffer, used or not; and the canaries. The seeded texts run again under valgrind,
each block in an allocation of its own size and what is lent to be written marked
as unwritten.

Where DAMAGE_DRIVE names a built drive (fuzz.sh makes one with AddressSanitizer),
that one takes valgrind's place, for the big texts too.

Exits with 1 if anything differed; the requests that did are left in target/damage/.
"""

from collections import Counter
from itertools import islice
from os import environ
from pathlib import Path
import random
import subprocess
import sys
import tempfile

from kinds import FILES, alike, big, damaged, long, needed
from questions import ask, one, stored_calls
from stream import Stream

ROOT = Path(__file__).resolve().parent.parent
ARCHIVE = ROOT / "target" / "staticlib" / "libkuhlabires.a"
LEFT = ROOT / "target" / "damage"
BATCH = 400
PATIENCE = 600                              # seconds for a batch, some 2 of them needed


def compiled(folder, name, *words):
    program = f"{folder}/{name}"
    subprocess.run(
        ["gcc", "-std=c11", "-O2", "-Wall", "-Wextra", "-Werror", *words, f"-I{ROOT}/include",
         f"{ROOT}/damage/{name}.c", str(ARCHIVE), "-o", program],
        check=True,
    )
    return program


def built(folder):
    """The commands that answer a stream: plain, and watched."""
    drive = compiled(folder, "drive")
    watched = ["valgrind", "--quiet", "--error-exitcode=9", "--leak-check=full", drive]
    if "DAMAGE_DRIVE" in environ:
        watched = [environ["DAMAGE_DRIVE"]]
    return [drive], watched


def ended(command, asked, out):
    """How the command ended on these requests; None where it did not."""
    try:
        return subprocess.run(command, stdin=asked, stdout=out, timeout=PATIENCE).returncode
    except subprocess.TimeoutExpired:
        return None


def differences(command, asked, answers, folder):
    """What was asked and answered otherwise, or not at all."""
    with open(asked, "rb") as requests, open(f"{folder}/answers", "wb") as out:
        status = ended(command, requests, out)
    found = []
    with open(f"{folder}/answers", "rb") as answered:
        for label, wanted in answers:
            if answered.read(len(wanted)) != wanted:
                found.append(label)
                break                       # the answers after it may stand elsewhere
        else:
            if answered.read(1):
                found.append("more answers than requests")
    if status != 0:
        found.append(f"ended with {status}")
    return found


def hold(stream, commands, name):
    """How many of the commands differ on this stream, which is kept where one does."""
    differ = 0
    with tempfile.TemporaryDirectory() as folder:
        asked = Path(folder) / "requests"
        with asked.open("wb") as out:
            out.writelines(stream.requests)
        for command in commands:
            for label in differences(command, asked, stream.answers, folder):
                differ = differ + 1
                print(f"differs under {Path(command[0]).name}: {label}")
        if differ:
            LEFT.mkdir(parents=True, exist_ok=True)
            (LEFT / f"{name}.requests").write_bytes(asked.read_bytes())
    return differ


def texts(rng, seed, count):
    """(label, text): every stored file as it is, then damaged texts."""
    for number, data in enumerate(FILES):
        yield f"stored file {number}", data
    for case in range(1, count + 1):
        kind, data = damaged(rng)
        yield f"case {case} of seed {seed} ({kind})", data


def seeded(seed, count, commands, totals):
    stream = Stream()
    stored_calls(stream)
    differ = hold(stream, commands, "calls")
    counted(stream, totals)
    rng, number = random.Random(seed), 0
    found = texts(rng, seed, count)
    while batch := list(islice(found, BATCH)):
        stream = Stream()
        for stream.label, data in batch:
            one(rng, stream, data)
        differ += hold(stream, commands, f"{seed}-{number}")
        counted(stream, totals)
        number += len(batch)
    return differ, number


def large(seed, makers, commands, totals):
    rng, differ, texts = random.Random(seed), 0, 0
    for maker in makers:
        for kind, data, lent, room in maker(rng):
            stream = Stream()
            stream.label = kind
            stream.in_rooms(data, needed(data))
            stream.read(data, lent)
            for weights in (0, 1):
                stream.tidy(data, lent, room, weights)
            ask(rng, stream, 2)
            for length in (3 * 65_537, 3 * 65_537 - 1):
                stream.run(1, 65_536, length, 0)
            for length in (3 * 4_097, 0):
                stream.polyline(1, 0, length, 0)
            stream.sweep(sum(stream.used[:4]))
            differ += hold(stream, commands, f"{seed}-{maker.__name__}-{texts}")
            counted(stream, totals)
            texts += 1
    return differ, texts


def agreeing(seed, folder):
    """How many texts differ that are too big for second/ and held against themselves."""
    differ = 0
    replay = compiled(folder, "fuzz", "-DREPLAY")
    for name, data in alike(random.Random(seed)):
        path = Path(folder) / "big.obj"
        path.write_bytes(data)
        if subprocess.run([replay, path], stdout=subprocess.DEVNULL).returncode != 0:
            differ += 1
            print(f"does not agree with itself: {name} of seed {seed}")
    return differ


def counted(stream, totals):
    totals.update(stream.tally)
    totals["bytes"] += sum(len(wanted) for _, wanted in stream.answers)


LETTERS = {
    "R": "read", "O": "rooms and read", "T": "tidy", "C": "point_on_curve", "F": "point_on_surface", "N": "run_on_curve",
    "P": "polyline", "B": "cubic_at", "W": "sweep", "E": "element_of", "Y": "body_of", "U": "curv2_element", "K": "corner_of", "G": "group_of",
    "M": "material_of", "X": "explain",
}


def show(totals):
    """How often each function gave each number of refusal."""
    for letter, name in LETTERS.items():
        numbers = sorted(key[1] for key in totals if key[0] == letter)
        shown = ", ".join(f"{number} {totals[letter, number]}" for number in numbers)
        print(f"    {name}: {shown}")


def main(seed, count, more):
    totals = Counter()
    with tempfile.TemporaryDirectory() as folder:
        plain, watched = built(folder)
        differ, count = seeded(seed, count, [plain, watched], totals)
        quick = [plain, watched] if "DAMAGE_DRIVE" in environ else [plain]
        more_differ, texts = large(seed, [big, long] if more else [big], quick, totals)
        differ += more_differ
        if more:
            differ += agreeing(seed, folder)
    size = totals.pop("bytes")
    show(totals)
    print(
        f"damage: {count} texts and {texts} big ones, {totals.total()} calls,"
        f" {size} bytes compared: {differ} differ"
    )
    return 1 if differ else 0


if __name__ == "__main__":
    sys.exit(main(int(sys.argv[1]), int(sys.argv[2]), sys.argv[3:] == ["LONG"]))
