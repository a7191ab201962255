"""Makes the library for C and Rust, target/staticlib/libkuhlabires.a.

    python3 host/library.py

does it by `rt lib`, which proves what has changed since the last check and takes what stands.

    python3 host/library.py --after-ci

is for a clean checkout in which `rt ci` has just passed: the crate kuhlabires is proved and built over the libraries that it left in crates/*/out, and
none of these is proved again. Where they do not fit one another it is done by `rt lib` all the same.

    python3 host/library.py --with TOOLS ARCHIVE

makes another archive by the tools of a folder that stands in for the kit's, over the libraries that `rt lib` leaves (damage/fuzz.sh).
"""

import shutil
import subprocess
import sys
from pathlib import Path

ROOT = Path(__file__).resolve().parent.parent
CRATE = ROOT / "crates" / "kuhlabires"
MADE = CRATE / "out" / "libkuhlabires.a"
ARCHIVE = ROOT / "target" / "staticlib" / "libkuhlabires.a"
RT = shutil.which("rt")
if RT is None:
    sys.exit("host/library.py: no rt on the PATH: it is the command of the Rattle toolchain")
KIT = Path(RT).resolve().parent.parent


def lines():
    """Each crate of crates.txt, with what it uses."""
    rows = [line.partition("#")[0].partition(":") for line in (ROOT / "crates.txt").read_text(encoding="utf-8").splitlines()]
    return {name.split()[0]: used.split() for name, colon, used in rows if colon}


def below(name, uses):
    """The crates of the repository that a crate stands on."""
    found, left = set(), [name]
    while left:
        new = {used for used in uses[left.pop()] if used in uses} - found
        found |= new
        left += sorted(new)
    return sorted(found)


def build(tools, archive):
    """Proves kuhlabires and builds it over the libraries in crates/*/out, as they stand."""
    uses = lines()

    def library(name):
        return ROOT / "crates" / name / "out" / "rlib" / f"{name}.rlib" if name in uses else KIT / "rlibs" / f"{name}.rlib"

    named = [word for name in ("std", *uses["kuhlabires"]) for word in ("--extern", f"{name}={library(name)}")]
    found = [word for folder in (KIT / "rlibs", *(library(name).parent for name in below("kuhlabires", uses))) for word in ("-L", f"dependency={folder}")]
    logic = ["--antt-project", KIT / "rattle" / "logic" / "antt-project.json", "--logic-built", KIT / "logic_built", "--jobs", "2"]
    kind = ["--crate-type", "staticlib", "--backend", "llvm", "--toolchain", tools, "-o", archive]
    words = [KIT / "bin" / "rattle", "build", "--crate-name", "kuhlabires", "src/lib.rt", *named, *found, *logic, *kind]
    return subprocess.run(words, cwd=CRATE, stdin=subprocess.DEVNULL).returncode


def built(after_ci):
    ARCHIVE.parent.mkdir(parents=True, exist_ok=True)
    ARCHIVE.unlink(missing_ok=True)
    if after_ci:
        if not build(KIT / "toolchain", ARCHIVE):
            return 0
        print("library: what stands in crates/*/out does not fit, so rt lib makes it anew", flush=True)
    status = subprocess.run(["rt", "lib"], cwd=CRATE, stdin=subprocess.DEVNULL).returncode
    if not status:
        shutil.copyfile(MADE, ARCHIVE)
    return status


def main(asked):
    if asked in ([], ["--after-ci"]):
        return built(bool(asked))
    if asked[0] == "--with" and len(asked) == 3:
        tools, archive = (Path(word).resolve() for word in asked[1:])
        return built(False) or build(tools, archive)
    sys.exit(__doc__)


if __name__ == "__main__":
    sys.exit(main(sys.argv[1:]))
