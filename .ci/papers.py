"""Holds README.md and docs/ against the repository: what they cite exists where they say.

    python3 .ci/papers.py                       the check; exit code 1 if something cited is not there
    python3 .ci/papers.py --quotes PAPER..      are the quotations in the comments of specs/ words of these papers?

Checked: paths; definitions, theorems and functions cited beside a file; must-fail edits; cases; crates in the
tables of crates; entry points, which have no `requires`; functions listed twice; numbers of decisions; counted
lines; that what must be believed stands in files that say so, and alone; docs/KEYWORDS.md, which is printed from the code. docs/LANDINGS.md, docs/PORT.md and docs/DESIGN-PASS.md speak of what was, and are left out.
"""

import re
import sys
from pathlib import Path

import believed
import keywords

ROOT = Path(__file__).resolve().parent.parent
PATH = r"[\w.-]+(?:/[\w.*+-]+)*\.(?:antt|rt|edit|py|sh|rs|md|txt|obj|tidy|c|h|patch)\b"
NAMES = r"(?:`[^`|]+`(?:, | and )?)+"
REQUIRES = re.compile(r"\brequires\*?(?: \w+)? \{")
PARTS = ("src", "specs", "proofs", "must-fail", "tests")
PLACEHOLDERS = ("part.obj",)  # a file of whoever reads README


def crates_of(text):
    return {line.split(":")[0].split()[0] for line in text.splitlines() if ":" in line and not line.startswith("#")}


CRATES = crates_of((ROOT / "crates.txt").read_text())
BELIEVED = {believed.named(file): lines for file, lines, *_ in believed.counted()}


def found(path, below=None):
    """The files that a cited path names: from the root, from crates/, among the cases, or beside the file before it."""
    places = [ROOT, ROOT / "crates", ROOT / "docs", ROOT / "second" / "cases", ROOT / "examples"]
    if below:
        places.append(below)
    return [hit for place in places for hit in sorted(place.glob(path))]


def defines(file, name):
    """Whether the file defines the name: a definition, theorem, field, function, type, case or test."""
    text = file.read_text(encoding="utf-8")
    plain = re.escape(name.split("::")[-1])
    if file.suffix == ".antt":
        return re.search(rf"(?m)^\s*(?:(?:abbrev|unfoldable|pub|record|data|module)\s+)*«?{plain}»?(?=[\s:({{])(?!\s*=)", text) is not None
    if file.suffix == ".rt":
        return re.search(rf"\b(?:fn|struct|enum|const|static|mod)\s+{plain}\b|^\s+{plain}[,({{ ]", text, re.M) is not None
    return re.search(rf"(?m)\b(?:def|class|fn|struct|enum|const)\s+{plain}\b|^{plain}\s*=", text) is not None


def names_in(text):
    return [name for name in re.findall(r"`([^`]+)`", text) if re.fullmatch(r"[\w:'◌≈_-]+", name)]


def check_paths(line, say):
    below = None
    for path in re.findall(rf"(?<![\w/:.]){PATH}", line):
        hits = found(path, below)
        if "/" not in path and not hits:
            hits = sorted((ROOT / "crates").glob(f"*/*/{path}"))
        if not hits and path not in PLACEHOLDERS:
            say(f"no file {path}")
        elif hits and "/" in path:
            below = hits[0].parent


def beside(line):
    """Pairs of cited names and the files that they are cited beside."""
    for match in re.finditer(rf"({PATH}): ({NAMES})", line):
        yield names_in(match[2]), [match[1]]
    for match in re.finditer(rf"({NAMES}) \(((?:{PATH}(?:, )?)+)\)", line):
        yield names_in(match[1]), re.findall(PATH, match[2])
    for match in re.finditer(rf"({NAMES}) of ({PATH})", line):
        yield names_in(match[1]), [match[2]]
    for match in re.finditer(r"([\w/]+\.py), (`\w+`)", line):
        yield names_in(match[2]), [match[1]]


def files_of(paths, crate=None):
    files, below = [], None
    for path in paths:
        hits = found(path, below)
        if not hits and crate:
            hits = [hit for part in ("specs", "proofs", "src") for hit in sorted((ROOT / "crates" / crate / part).glob(path))]
        if not hits and "/" not in path:
            hits = sorted((ROOT / "crates").glob(f"*/*/{path}"))
        files += hits
        if hits:
            below = hits[0].parent
    return files


def check_beside(line, say):
    first = line.split("|")[1].strip() if line.startswith("|") else ""
    crate = first.split(",")[0] if first.split(",")[0] in CRATES else None
    for names, paths in beside(line):
        files = files_of(paths, crate)
        for name in names:
            if files and not any(defines(file, name) for file in files):
                say(f"`{name}` is not in {', '.join(paths)}")


def check_theorems(line, say):
    """A row of a table whose second cell is files: the names of its first cell stand in them."""
    cells = [cell.strip() for cell in line.split("|")]
    if len(cells) > 3 and re.match(PATH, cells[2]) and cells[1].startswith("`"):
        files = files_of(re.findall(PATH, cells[2]))
        for name in names_in(cells[1]):
            if not any(defines(file, name) for file in files):
                say(f"`{name}` is not in {cells[2]}")


def check_edits(line, say):
    for crate, edit in re.findall(r"(?<![\w/.-])([a-z_]+)/([a-z0-9_]+)(?![\w/.*-])", line):
        edits = ROOT / "crates" / crate / "must-fail"
        if edits.exists() and edit not in PARTS and not (edits / f"{edit}.edit").exists():
            say(f"no edit {crate}/{edit}")


def check_cases(line, say):
    for case in re.findall(r"(?<![\w/`-])(000/\d\d-[a-z0-9*-]+|(?:0\d|1[0-4]|read)-[a-z0-9*-]+)(?![\w`])", line):
        if not list((ROOT / "second" / "cases").glob(f"{case}.obj")):
            say(f"no case {case}")
    stored = (ROOT / "second" / "cases" / "points.txt").read_text(encoding="ascii")
    for file, call in re.findall(r"(points/[\w-]+\.obj), `([^`]+)`", line):
        if f"{file} | {call.replace(', ', ' | ', 1)} |" not in stored:
            say(f"no call {file}, {call}")


def signature(crate, name):
    """A function's text up to its body."""
    for file in sorted((ROOT / "crates" / crate / "src").glob("*.rt")):
        match = re.search(rf"(?ms)^pub (?:extern \"C\" )?fn {name}\b.*?(?:^{{|{{$)", file.read_text(encoding="utf-8"))
        if match:
            return match[0]
    return None


def check_functions(line, say):
    """A row of the table of functions: each is in its crate, and asks nothing where the row says so."""
    cells = [cell.strip() for cell in line.split("|")]
    if len(cells) < 5 or not all(crate in CRATES for crate in cells[1].split(", ")):
        return
    for name in names_in(re.sub(r"\([^)]*\)", "", cells[2])):
        asked = [text for crate in cells[1].split(", ") if (text := signature(crate, name.split("::")[-1]))]
        if not asked:
            say(f"no public function `{name}` in {cells[1]}")
        elif "no `requires`" in cells[3] and any(REQUIRES.search(text) for text in asked):
            say(f"`{name}` has a `requires`")


def check_twice(text, say):
    """No function stands twice in the table of functions."""
    seen = set()
    for line in text.splitlines():
        cells = [cell.strip() for cell in line.split("|")]
        for name in names_in(re.sub(r"\([^)]*\)", "", cells[2])) if len(cells) > 4 and cells[1] in CRATES else ():
            if (cells[1], name) in seen:
                say(f"`{name}` of {cells[1]} stands twice")
            seen.add((cells[1], name))


def check_entry_points(line, say):
    if "No entry point has a `requires`" in line:
        for names, paths in re.findall(rf"({NAMES}) \(({PATH})\)", line):
            for name in names_in(names):
                text = signature(paths.split("/")[0], name)
                if text is None or REQUIRES.search(text):
                    say(f"entry point `{name}`: {'not found' if text is None else 'has a requires'}")


def check_lines(line, say):
    """`Lists (17)` in the table of what must be believed: so many lines of that file of specs/ are reached."""
    cells = line.split("|")
    if len(cells) != 5 or not re.fullmatch(r"[\d,]+", cells[3].strip()):
        return
    total = 0
    for crate, name, lines in believed_in(cells[2]):
        found_lines = BELIEVED.get(f"{crate}: {name}", 0)
        total += lines
        if lines != found_lines:
            say(f"{crate}: {name} has {found_lines} lines that are reached, not {lines}")
    if total and total != int(cells[3].replace(",", "")):
        say(f"the lines are {total} in all, not {cells[3].strip()}")


def believed_in(cell):
    """The files that a cell of that table names: crate, file, lines that are reached."""
    crate = None
    for group in re.finditer(r"(?:\b([a-z_]+): )?\b([A-Z]\w+) \((\d+)\)", cell):
        crate = group[1] or crate
        yield crate, group[2], int(group[3])


def check_believed(text, say):
    """The table of what must be believed names each file that a promise reaches, once, and its last row has the sum."""
    rows = [line.split("|") for line in text.split("## What must be believed")[1].split("## ")[0].splitlines() if line.count("|") == 4]
    named = [f"{crate}: {name}" for row in rows for crate, name, _ in believed_in(row[2])]
    for name in sorted(set(named) ^ set(BELIEVED)) + [name for name in set(named) if named.count(name) > 1]:
        say(f"docs/PROMISES.md: {name} is {'not among what must be believed' if name not in named else 'there without being reached, or twice'}")
    total = sum(BELIEVED.values())
    if f"{total:,}" != rows[-1][3].strip():
        say(f"docs/PROMISES.md: {total:,} lines must be believed, not {rows[-1][3].strip()}")


def check_decisions(line, say):
    rows = (ROOT / "docs" / "DECISIONS.md").read_text(encoding="utf-8")
    for number in re.findall(r"(?:DECISIONS|decision) (\d+)", line):
        given = [cell.split("|")[1] for cell in rows.splitlines() if cell.startswith("|")]
        if not any(covers(cell, int(number)) for cell in given):
            say(f"no decision {number}")


def covers(cell, number):
    spans = re.findall(r"(\d+)(?: to (\d+))?", cell)
    return any(int(first) <= number <= int(last or first) for first, last in spans)


def check_crate_tables(texts, say):
    """README, CHECK-TIMES and PROMISES name every crate of crates.txt, and no other."""
    if CRATES != {path.name for path in (ROOT / "crates").iterdir()}:
        say("crates.txt and crates/ differ")
    readme = texts["README.md"].split("## The crates")[1]
    times = texts["docs/CHECK-TIMES.md"]
    promises = texts["docs/PROMISES.md"].split("## Functions")[1].split("## Theorems")[0]
    named = {
        "README.md": first_cells(readme),
        "docs/CHECK-TIMES.md": first_cells(times) - {"all"},
        "docs/PROMISES.md": first_cells(promises.split("\n\n")[1]) | set(names_in(promises.split("\n\n")[2])) & CRATES,
    }
    for paper, crates in named.items():
        for crate in sorted(CRATES ^ crates):
            say(f"{paper}: {crate} is {'not named' if crate in CRATES else 'no crate'}")


def first_cells(text):
    rows = [line.split("|")[1].strip() for line in text.splitlines() if re.match(r"\| [a-z_, ]+ \|", line)]
    return {name for row in rows for name in row.split(", ")} - {"crate"}


CHECKS = (check_paths, check_beside, check_theorems, check_edits, check_cases, check_functions, check_entry_points, check_lines, check_decisions)


def faults_of(line):
    faults = []
    for check in CHECKS:
        check(line, faults.append)
    return faults


# Lines that are wrong on purpose, each with what has to be found in it.
WRONG = (
    ("as docs/NOWHERE.md says", "no file docs/NOWHERE.md"),
    ("text/specs/Bytes.antt: `is_word`, `is_no_word`", "`is_no_word` is not in"),
    ("`read` and `unread` (reader/src/lib.rt)", "`unread` is not in"),
    ("| `claim`, `no-claim` | cases/proofs/Claim.antt | says |", "`no-claim` is not in"),
    ("must-fail reader/refuses_some", "no edit reader/refuses_some"),
    ("02-nul, 02-never", "no case 02-never"),
    ("points/millionths.obj, `run 1 9 9 9, -`", "no call points/millionths.obj"),
    ("| rounding | `betwixt` | a rule |", "no public function `betwixt`"),
    ("| read_lines | `lines_of` | all; no `requires` |", "`lines_of` has a `requires`"),
    ("No entry point has a `requires`: `lines_of` (read_lines/src/lib.rt)", "has a requires"),
    ("| x | lists: Lists (1) | 1 |", "reached, not 1"),
    ("| x | lists: Lists (14) | 14 |", "reached, not 14"),
    ("see DECISIONS 999", "no decision 999"),
)


def self_test():
    for line, wanted in WRONG:
        if not any(wanted in fault for fault in faults_of(line)):
            sys.exit(f"the check does not find what is wrong in: {line}")
    twice = []
    check_twice("| rounding | `between` | a rule |\n| rounding | `between` | a rule |", twice.append)
    if not twice:
        sys.exit("the check does not find what stands twice")


def check_quotes(papers):
    words = " ".join(" ".join(Path(paper).read_text(encoding="utf-8", errors="replace").split()) for paper in papers)
    failed = 0
    for file in sorted((ROOT / "crates").glob("*/specs/*.antt")):
        comments = " ".join(line.strip()[2:].strip() for line in file.read_text(encoding="utf-8").splitlines() if line.strip().startswith("--"))
        for quote in re.findall(r'"([^"]+)"', comments):
            for part in re.split(r"\s*\.\.\s*", quote):
                if part and part.strip() not in words:
                    failed += 1
                    print(f"{file.relative_to(ROOT)}: \"{part}\"")
    return failed


def main():
    if sys.argv[1:2] == ["--quotes"]:
        return 1 if check_quotes(sys.argv[2:]) else 0
    self_test()
    papers = [ROOT / "README.md", *sorted((ROOT / "docs").glob("*.md"))]
    texts = {str(paper.relative_to(ROOT)): paper.read_text(encoding="utf-8") for paper in papers}
    faults = []
    check_crate_tables(texts, faults.append)
    check_twice(texts["docs/PROMISES.md"].split("## Functions")[1].split("## Theorems")[0], faults.append)
    check_believed(texts["docs/PROMISES.md"], faults.append)
    faults += [f"{file.relative_to(ROOT)}: {fault}" for file, fault in believed.wrongly_marked()]
    if texts["docs/KEYWORDS.md"] != keywords.page():
        faults.append("docs/KEYWORDS.md is not what .ci/keywords.py prints")
    for paper, text in texts.items():
        if not paper.endswith(("LANDINGS.md", "PORT.md", "DESIGN-PASS.md")):
            faults += [f"{paper}:{i}: {fault}" for i, line in enumerate(text.splitlines(), 1) for fault in faults_of(line)]
    for fault in faults:
        print(fault)
    print(f"papers: {len(faults)} wrong" if faults else "papers: all that they cite is there")
    return 1 if faults else 0


if __name__ == "__main__":
    sys.exit(main())
