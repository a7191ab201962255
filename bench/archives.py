"""Two archives of this library, an earlier and a later one, in one run: whether the later one is slower.

    python3 bench/archives.py EARLIER LATER [ROUNDS]

Times are the processor's, and paired: in each round the drivers of both run once, one after the other, and a ratio is that of one round, below 1
where the later archive is faster; the tables give the median and the worst. Instructions are those of one reading, or of a point.
"""

import statistics
import sys
import tempfile
from pathlib import Path

from peers import BATCH, KINDS, MEGABYTE, SHAPES, answer, build_own, head, install, instructions, machine_line, points_words, reading_words, row
from peers import seconds_a_point, shape_name, spent_reading
from texts import texts


def compared(folders, rounds, seconds, cost):
    """The later's time for the earlier's, median and worst, and what each costs."""
    pairs = [[seconds(folder) for folder in folders] for _ in range(rounds)]
    each = [later / earlier for earlier, later in pairs]
    return [f"{statistics.median(each):.3f} ({max(each):.3f})", *(f"{cost(folder):.2f}" for folder in folders)]


def reading_rows(folders, rounds):
    head("text of 4 MB", "later time for earlier, median (worst)", "instructions a byte: earlier", "later")
    for kind in KINDS:
        for _, text in texts(kind, [4 * MEGABYTE]):
            path = folders[0] / "text.obj"
            path.write_bytes(text)
            row(kind, *compared(folders, rounds, lambda folder: answer(reading_words(folder, "kuhlabires", path, 1, 5))["reading"],
                                lambda folder: spent_reading(instructions, folder, "kuhlabires", path) / len(text)))


def points_rows(folders, rounds):
    head("cubic", "asked for", "later time for earlier, median (worst)", "instructions a point: earlier", "later")
    for surface, segments, modes in SHAPES:
        for basis in ("bezier", "bspline"):
            for mode in modes:
                if mode == "steps" and basis == "bspline":
                    continue
                shape = (basis, surface, segments, mode)

                def cost(folder):
                    none, some = (instructions(points_words(folder, "kuhlabires", *shape, n)) for n in (0, 2 * BATCH[mode]))
                    return (some - none) / (2 * BATCH[mode])

                row(shape_name(basis, surface, segments), mode, *compared(folders, rounds, lambda folder: seconds_a_point(folder, "kuhlabires", *shape), cost))


def main():
    archives, rounds = [Path(word).resolve() for word in sys.argv[1:3]], int(sys.argv[3]) if 3 < len(sys.argv) else 7
    if len(archives) < 2:
        sys.exit(__doc__)
    install()
    with tempfile.TemporaryDirectory() as name:
        folders = [Path(name) / which for which in ("earlier", "later")]
        for folder, archive in zip(folders, archives):
            folder.mkdir()
            build_own(folder, archive)
        print(machine_line() + "\n\n### Reading\n")
        reading_rows(folders, rounds)
        print("\n### Points\n")
        points_rows(folders, rounds)


if __name__ == "__main__":
    main()
