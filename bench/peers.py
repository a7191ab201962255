"""This library beside its peers, in one run; prints the tables of docs/SPEED.md.

    python3 bench/peers.py [ROUNDS]

It installs the peers, makes the archive (or takes the one that KUHLABIRES_ARCHIVE names) and builds all for release. Times are the processor's,
and paired: in each round every program runs once, one after the other, and the ratios are those of a round; the tables give their median and
their worst. A time is the best of three readings, or of 200,000 points. Instructions are counted by valgrind, so that nothing else on the machine
matters: those of a run with one reading less those of a run with none.
"""

import os
import re
import shutil
import statistics
import subprocess
import sys
import tempfile
from pathlib import Path

from texts import BROKEN, texts

ROOT = Path(__file__).resolve().parent.parent
ARCHIVE = Path(os.environ.get("KUHLABIRES_ARCHIVE", ROOT / "target" / "staticlib" / "libkuhlabires.a"))
MEGABYTE = 1_000_000
SIZES = [1, 2, 4, 8, 16]
KINDS = ("v and f", "v, vt, vn and f", "v, vt, vn and f, exponents", "polygons of 4,000 corners", "curves and surfaces")
READERS = ["kuhlabires", "tinyobjloader", "assimp"]
SAMPLERS = ["kuhlabires", "sisl", "gsl"]
BATCH = {"alone": 1024, "steps": 1024, "run": 1001, "grid": 101 * 101}  # as points.c has them
PACKAGES = ["libtinyobjloader-dev", "libassimp-dev", "libsisl-dev", "libgsl-dev", "valgrind", "gcc", "g++"]


# ---- Installing and building ----


def installed(package):
    asked = subprocess.run(["dpkg-query", "-W", "-f", "${Status} ${Version}", package], capture_output=True, text=True)
    return asked.stdout.split()[-1] if asked.stdout.startswith("install ok") else None


def install():
    missing = [p for p in PACKAGES if not installed(p) and not shutil.which(p)]
    if missing:
        subprocess.run(["apt-get", "update", "-qq"], check=True)
        subprocess.run(["apt-get", "install", "-y", "-qq", *missing], check=True, stdout=subprocess.DEVNULL)


def run(*words, **more):
    subprocess.run([str(w) for w in words], check=True, **more)


def build_own(folder, archive):
    """The drivers of this library, linked with that archive; points.c has those of its peers too."""
    def c(name, *libraries):
        run("gcc", "-std=gnu11", "-O3", "-I", ROOT / "include", ROOT / "bench" / f"{name}.c", archive, *libraries, "-o", folder / name)

    c("read_kuhlabires")
    c("points", "-lsisl", "-lgsl", "-lgslcblas", "-lm")


def build(folder):
    if "KUHLABIRES_ARCHIVE" not in os.environ:
        run(sys.executable, ROOT / "host" / "library.py", stdout=subprocess.DEVNULL)
    build_own(folder, ARCHIVE)
    run("g++", "-std=c++17", "-O3", ROOT / "bench" / "read_tinyobjloader.cpp", "-o", folder / "read_tinyobjloader")
    run("g++", "-std=c++17", "-O3", ROOT / "bench" / "read_assimp.cpp", "-lassimp", "-o", folder / "read_assimp")


# ---- Measuring ----


def answer(words):
    """What a driver prints, NAME NUMBER NAME NUMBER ..; None where it gave up."""
    run = subprocess.run([str(w) for w in words], capture_output=True, text=True)
    if run.returncode:
        return None
    said = run.stdout.split()
    return {name: float(number) for name, number in zip(said[::2], said[1::2])}


def by_valgrind(tool, pattern, words):
    run = subprocess.run(["valgrind", *tool, *[str(w) for w in words]], capture_output=True, text=True, check=True)
    return int(re.search(pattern, run.stderr).group(1).replace(",", ""))


def instructions(words, out="/dev/null"):
    return by_valgrind(["--tool=callgrind", f"--callgrind-out-file={out}"], r"Collected : (\d+)", words)


def by_function(words):
    """The instructions that a run spends in each function of the archive, and in memset, the one that it asks for."""
    own = set(re.findall(r" [tT] (.+)", subprocess.run(["nm", ARCHIVE], capture_output=True, text=True, check=True).stdout))
    with tempfile.NamedTemporaryFile() as file:
        instructions(words, file.name)
        said = subprocess.run(["callgrind_annotate", file.name], capture_output=True, text=True, check=True).stdout
    spent = {}
    for count, name in re.findall(r"^ *([\d,]+) \( *[\d.]+%\) +[^:]*:(.+?) \[", said, re.M):
        name = "memset" if "memset" in name else name
        if name in own or name == "memset":
            spent[name] = spent.get(name, 0) + int(count.replace(",", ""))
    return sorted(spent.items(), key=lambda pair: -pair[1])


def allocations(words):
    return by_valgrind(["--leak-check=no"], r"total heap usage: ([\d,]+) allocs", words)


def reading_words(folder, reader, path, countings, readings):
    words = [folder / f"read_{reader}", path]
    return words + [countings, readings] if reader == "kuhlabires" else words + [readings]


def spent_reading(measure, folder, reader, path):
    """What one reading takes, in instructions or allocations."""
    return measure(reading_words(folder, reader, path, 1, 1)) - measure(reading_words(folder, reader, path, 1, 0))


def ratios(ours, theirs):
    each = [b / a for a, b in zip(ours, theirs)]
    return f"{statistics.median(each):.2g} ({min(each):.2g})"


def row(*cells):
    print("| " + " | ".join(str(c) for c in cells) + " |", flush=True)


def head(*cells):
    row(*cells)
    print("|" + "---|" * len(cells))


# ---- Reading ----


def reading_rows(folder, rounds, counted):
    """Speed, of each kind and size. The texts of the tables that follow stay: one of each kind, named in `counted`, and every mesh."""
    head("text", "MB", "this, MB/s", "with counting", "tinyobjloader", "assimp", "times tinyobjloader, median (worst)",
         "with counting", "times assimp")
    for kind in KINDS:
        for size, text in texts(kind, [n * MEGABYTE for n in SIZES]):
            path = folder / f"{kind} {size}.obj"
            path.write_bytes(text)
            times = {name: [] for name in ["kuhlabires", "counted", "tinyobjloader", "assimp"]}
            for _ in range(rounds):
                for reader in READERS:
                    said = answer(reading_words(folder, reader, path, 3, 3))
                    if said:
                        times[reader].append(said["reading"])
                        if reader == "kuhlabires":
                            times["counted"].append(said["reading"] + said["counting"])
            speed = {name: f"{len(text) / statistics.median(t) / 1e6:.0f}" if t else "refused" for name, t in times.items()}
            row(kind, f"{len(text) / 1e6:.1f}", speed["kuhlabires"], speed["counted"], speed["tinyobjloader"], speed["assimp"],
                ratios(times["kuhlabires"], times["tinyobjloader"]), ratios(times["counted"], times["tinyobjloader"]),
                ratios(times["kuhlabires"], times["assimp"]) if times["assimp"] else "-")
            if size == 4 * MEGABYTE:
                counted.append((kind, path, len(text)))
            elif kind != "v, vt, vn and f":
                path.unlink()


def cost_rows(folder, counted):
    head("text of 4 MB", "instructions a byte: this", "counting", "tinyobjloader", "assimp", "peak memory, MB: this", "tinyobjloader", "assimp")
    for kind, path, length in counted:
        cost = {reader: f"{spent_reading(instructions, folder, reader, path) / length:.1f}" for reader in READERS}
        none = instructions(reading_words(folder, "kuhlabires", path, 0, 0))
        counting = (instructions(reading_words(folder, "kuhlabires", path, 1, 0)) - none) / length
        peak = {reader: f"{answer(reading_words(folder, reader, path, 1, 1))['peak'] * 1024 / 1e6:.1f}" for reader in READERS}
        row(kind, cost["kuhlabires"], f"{counting:.1f}", cost["tinyobjloader"], cost["assimp"], *(peak[reader] for reader in READERS))


def growth_rows(folder):
    head("text", "MB", "instructions a byte")
    for size in SIZES:
        path = folder / f"v, vt, vn and f {size * MEGABYTE}.obj"
        row("v, vt, vn and f", size, f"{spent_reading(instructions, folder, 'kuhlabires', path) / path.stat().st_size:.2f}")
    for size, text in texts("one single line", [MEGABYTE, 16 * MEGABYTE]):
        path = folder / "line.obj"
        path.write_bytes(text)
        row("one single line", size // MEGABYTE, f"{spent_reading(instructions, folder, 'kuhlabires', path) / len(text):.2f}")


def allocation_rows(folder):
    path = folder / f"v, vt, vn and f {MEGABYTE}.obj"
    head("allocations", "this", "tinyobjloader", "assimp", "SISL", "GSL")
    row("one reading of 1 MB", *(spent_reading(allocations, folder, reader, path) for reader in READERS), "", "")
    for name, surface, mode in (("curve points one by one, 1,024", 0, "alone"), ("a run of 1,001", 0, "run"), ("a grid of 101 x 101", 1, "grid")):
        each = [allocations(points_words(folder, s, "bezier", surface, 4, mode, 1)) - allocations(points_words(folder, s, "bezier", surface, 4, mode, 0))
                for s in SAMPLERS]
        row(name, each[0], "", "", *each[1:])
    undefined = subprocess.run(["nm", "-u", ARCHIVE], capture_output=True, text=True, check=True).stdout
    print("\nWhat the archive asks of the program that links it:", ", ".join(re.findall(r" U (\S+)", undefined)))


def refusal_rows(folder):
    head("broken text", "this", "tinyobjloader", "assimp")
    path = folder / "broken.obj"
    for name, text in BROKEN.items():
        path.write_text(text)
        runs = [subprocess.run([str(w) for w in reading_words(folder, reader, path, 1, 1)], capture_output=True, text=True) for reader in READERS]
        row(name, *(run.stdout.strip() if run.returncode else "read" for run in runs))


# ---- Points ----


def points_words(folder, sampler, basis, surface, segments, mode, count):
    return [folder / "points", sampler, basis, surface, segments, mode, count]


SHAPES = ((0, 1, ["alone", "steps", "run"]), (0, 16, ["alone", "steps", "run"]), (1, 1, ["alone", "grid"]), (1, 4, ["alone", "grid"]))


def shape_name(basis, surface, segments):
    side = 3 * segments + 1
    return f"{basis} {'surface' if surface else 'curve'}, {f'{side} x {side}' if surface else side} controls"


def seconds_a_point(folder, sampler, basis, surface, segments, mode):
    said = answer(points_words(folder, sampler, basis, surface, segments, mode, 200_000))
    return said["seconds"] / said["points"]


def points_rows(folder, rounds):
    head("cubic", "asked for", "this, million points/s", "SISL", "GSL", "times SISL, median (worst)", "times GSL", "instructions a point: this", "SISL", "GSL",
         "apart at most, millionths")
    for surface, segments, modes in SHAPES:
        for basis in ("bezier", "bspline"):
            for mode in modes:
                if mode == "steps" and basis == "bspline":
                    continue
                times, cost = {s: [] for s in SAMPLERS}, {}
                for _ in range(rounds):
                    for sampler in SAMPLERS:
                        times[sampler].append(seconds_a_point(folder, sampler, basis, surface, segments, mode))
                for sampler in SAMPLERS:
                    none, some = (instructions(points_words(folder, sampler, basis, surface, segments, mode, n)) for n in (0, 2 * BATCH[mode]))
                    cost[sampler] = f"{(some - none) / (2 * BATCH[mode]):.0f}"
                speed = {s: f"{1e-6 / statistics.median(t):.2f}" for s, t in times.items()}
                apart = answer(points_words(folder, "difference", basis, surface, segments, mode, 0))["difference"]
                row(shape_name(basis, surface, segments), mode, *(speed[s] for s in SAMPLERS), ratios(times["kuhlabires"], times["sisl"]), ratios(times["kuhlabires"], times["gsl"]),
                    *(cost[s] for s in SAMPLERS), f"{apart * 1e6:.2f}")


def rules_rows(folder, rounds):
    """What of a point alone is the call and the element held against the rules: a parameter before the range is refused right after that."""
    head("cubic, alone", "rules and call, ns", "the point, ns", "SISL", "GSL")
    asked = [("kuhlabires", "outside"), *((sampler, "alone") for sampler in SAMPLERS)]
    for surface, segments, _ in SHAPES:
        for basis in ("bezier", "bspline"):
            times = [[seconds_a_point(folder, sampler, basis, surface, segments, mode) for sampler, mode in asked] for _ in range(rounds)]
            row(shape_name(basis, surface, segments), *(f"{1e9 * statistics.median(each):.0f}" for each in zip(*times)))


def function_rows(folder, counted):
    head("instructions of this library by function", "each")
    for kind, path, length in counted:
        spent = by_function(reading_words(folder, "kuhlabires", path, 1, 1))
        row(f"{kind}, a byte", ", ".join(f"{name} {count / length:.1f}" for name, count in spent if length < 10 * count))
    for name, surface, segments, mode in (("curve of 4 controls, alone", 0, 1, "alone"), ("curve of 4 controls, steps", 0, 1, "steps"), ("curve of 49 controls, alone", 0, 16, "alone"),
                                          ("curve of 49 controls, run", 0, 16, "run"), ("surface of 4 x 4 controls, alone", 1, 1, "alone")):
        batch = BATCH[mode]
        spent = by_function(points_words(folder, "kuhlabires", "bezier", surface, segments, mode, 20 * batch))
        row(f"bezier {name}, a point", ", ".join(f"{name} {count / (20 * batch):.0f}" for name, count in spent if 400 * batch < count))


def machine_line():
    model = re.search(r"model name\s*: (.*)", Path("/proc/cpuinfo").read_text()).group(1)
    memory = int(re.search(r"MemTotal:\s*(\d+)", Path("/proc/meminfo").read_text()).group(1)) * 1024 / 1e9
    return f"{model}, {os.cpu_count()} cores, {memory:.0f} GB of memory"


def machine():
    peers = ", ".join(f"{p} {installed(p)}" for p in PACKAGES[:4])
    print(f"{machine_line()}; {peers}.")


def main():
    rounds = int(sys.argv[1]) if 1 < len(sys.argv) else 7
    install()
    with tempfile.TemporaryDirectory() as name:
        folder, counted = Path(name), []
        build(folder)
        machine()
        print("\n### Reading: speed\n")
        reading_rows(folder, rounds, counted)
        print("\n### Reading: instructions and memory\n")
        cost_rows(folder, counted)
        print("\n### Reading: growth\n")
        growth_rows(folder)
        print("\n### Reading: what is refused\n")
        refusal_rows(folder)
        print("\n### Points\n")
        points_rows(folder, rounds)
        print("\n### Points alone: the rules and the call\n")
        rules_rows(folder, rounds)
        print("\n### Where the instructions go\n")
        function_rows(folder, counted)
        print("\n### Allocation\n")
        allocation_rows(folder)


if __name__ == "__main__":
    main()
