"""The sweep of tables of 1 to 16 MB of text: records a second, and instructions a record.

    python3 host/library.py && python3 bench/sweep.py [ROUNDS]

Prints the table of docs/SPEED.md. Records are those of v, vt, vn and vp, the corners, elements,
bodies, parameters and loop parts. Instructions are counted by callgrind inside the call alone.
KUHLABIRES_ARCHIVE names an archive that stands elsewhere.
"""

import statistics
import subprocess
import sys
import tempfile
from pathlib import Path

from peers import answer, by_valgrind, head, machine_line, row
from polyline import ARCHIVE, ROOT
from texts import texts

MEGABYTE = 1 << 20
SIZES = (1, 2, 4, 8, 16)
KINDS = ("half of them named", "v, vt, vn and f", "curves and surfaces")


def instructions(words):
    only = ["--tool=callgrind", "--toggle-collect=kuhlabires_sweep", "--callgrind-out-file=/dev/null"]
    return by_valgrind(only, r"Collected : (\d+)", words)


def main():
    rounds = int(sys.argv[1]) if 1 < len(sys.argv) else 7
    with tempfile.TemporaryDirectory() as folder:
        program, path = Path(folder) / "sweep", Path(folder) / "text.obj"
        subprocess.run(["gcc", "-std=gnu11", "-O3", "-I", ROOT / "include", ROOT / "bench/sweep.c", ARCHIVE, "-o", program], check=True)
        print(machine_line() + "\n")
        head("text", "MB", "records", "dropped", "million records/s", "instructions a record")
        for kind in KINDS:
            for size, text in texts(kind, [size * MEGABYTE for size in SIZES]):
                path.write_bytes(text)
                said = answer([program, path, 1])
                records = said["records"]
                each = [answer([program, path, 3])["seconds"] / 3 for _ in range(rounds)]
                cost = instructions([program, path, 1]) / records
                speed = records / statistics.median(each) / 1e6
                row(kind, size // MEGABYTE, f"{records:,.0f}", f"{said['dropped']:,.0f}", f"{speed:.1f}", f"{cost:.2f}")


if __name__ == "__main__":
    main()
