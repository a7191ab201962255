"""Polylines of the examples at several tolerances, beside the run that is as straight.

    python3 host/library.py && python3 bench/polyline.py [ROUNDS]

Prints the table of docs/SPEED.md: points handed out, intervals looked at, samples
(calls of sampler::sampling::curve_at, counted by callgrind), and nanoseconds for a
polyline; the fewest steps of a run whose every chord passes the same test, and
its nanoseconds.  KUHLABIRES_ARCHIVE names an archive that stands elsewhere.
"""

import os
import re
import statistics
import subprocess
import sys
import tempfile
from pathlib import Path

from peers import answer, head, machine_line, row

ROOT = Path(__file__).resolve().parent.parent
ARCHIVE = Path(os.environ.get("KUHLABIRES_ARCHIVE", ROOT / "target" / "staticlib" / "libkuhlabires.a"))
CURVES = [("foam-wing", 1), ("chair-rail", 1), ("seat", 2)]
TOLERANCES = [10_000, 1_000, 500, 100, 10, 1, 0]
SAMPLE = "sampler::sampling::curve_at"
TIMED = 20_000                              # points that one timing makes, about


def samples(words):
    """How often the program calls the sampler."""
    with tempfile.NamedTemporaryFile() as file:
        subprocess.run(
            ["valgrind", "--tool=callgrind", "--compress-strings=no", f"--callgrind-out-file={file.name}", *map(str, words)],
            capture_output=True, check=True,
        )
        said = Path(file.name).read_text()
    return sum(map(int, re.findall(rf"^cfn={SAMPLE}\ncalls=(\d+)", said, re.M)))


def nanoseconds(program, path, element, asked, mode, points, rounds):
    times = max(1, TIMED // points)
    each = [answer([program, path, element, asked, mode, times])["seconds"] / times for _ in range(rounds)]
    return f"{statistics.median(each) * 1e9:,.0f}"


def main():
    rounds = int(sys.argv[1]) if 1 < len(sys.argv) else 7
    with tempfile.TemporaryDirectory() as folder:
        program = Path(folder) / "polyline"
        subprocess.run(["gcc", "-std=gnu11", "-O3", "-I", ROOT / "include", ROOT / "bench/polyline.c", ARCHIVE, "-o", program], check=True)
        print(machine_line() + "\n")
        head("curve", "tolerance, millionths", "points", "intervals", "samples", "ns", "a run as straight: points", "ns")
        for name, element in CURVES:
            path = ROOT / "examples" / f"{name}.obj"
            for tolerance in TOLERANCES:
                counts = answer([program, path, element, tolerance, "counts"])
                points, intervals, steps = (int(counts[key]) for key in ("points", "intervals", "steps"))
                called = samples([program, path, element, tolerance, "cut", 1])
                assert called <= 2 * points + 2 * intervals, (name, tolerance)
                cut = nanoseconds(program, path, element, tolerance, "cut", points, rounds)
                run = ["none", ""]
                if steps <= 65_536:
                    run = [f"{steps + 1:,}", nanoseconds(program, path, element, steps, "run", steps + 1, rounds)]
                row(f"{name}, element {element}", f"{tolerance:,}", f"{points:,}", f"{intervals:,}", f"{called:,}", cut, *run)


if __name__ == "__main__":
    main()
