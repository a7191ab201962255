"""Which definitions of specs/ have to be believed: those that a promise reaches.

    python3 .ci/believed.py             each file of specs/ with definitions that are reached: how many lines they have, and of how many
    python3 .ci/believed.py --rest      in those files, what no promise reaches
    python3 .ci/believed.py --mark      writes MARK on top of each of them, and takes it from every other file
    python3 .ci/believed.py --table     writes these lines into the table of docs/PROMISES.md

A promise is the `ensures` of an entry point (docs/PROMISES.md lists them: "No entry point has a `requires`"; and what C links) or the
statement of a theorem of THEOREMS. From the names that it uses the definitions are followed through the `use` lines of specs/.
A definition's lines are its signature, its clauses, its fields or cases; the comment above it is counted apart.
A file whose first line is MARK holds such definitions alone, and every one of them stands in such a file (.ci/papers.py sees to it).
"""

import re
import sys
from pathlib import Path

ROOT = Path(__file__).resolve().parent.parent
CRATES = ROOT / "crates"
PROMISES = ROOT / "docs" / "PROMISES.md"
HEAD = re.compile(r"^(?:(?:abbrev|unfoldable|opaque|pub)\s+)*(?:(record|data|module)\s+)?(«[^»]+»|[^\s(){}:,;]+)")
MARK = "-- Must be believed: a promise reaches every definition of this file."
# Entry points that the table of demand 1 does not list.
FUNCTIONS = {
    "tidy_output/src/lib.rt": "tidy_output",
    "keywords/src/lib.rt": "keyword_row argument_row",
}
# The theorems that say what the product promises beyond the entry points' equations.
THEOREMS = {
    "end_to_end/proofs/Kept.antt": "kept",
    "end_to_end/proofs/Polylines.antt": "filled-polylines own-polylines",
    "read_rooms/proofs/NeverLacks.antt": "never-lacks-room",
    "read_rooms/proofs/Few.antt": "few-for-its-words",
    "read_rooms/proofs/Words.antt": "few_words",
    "polyline/proofs/Demanded.antt": "polylines-on-curves",
    "polyline/proofs/Every.antt": "every-chord",
    "point_chords/proofs/Middle.antt": "middle-floored",
    "polyline/proofs/Granted.antt": "samplers-fifteen",
    "point_cubics/proofs/Stepped.antt": "points-in-steps two-paths",
    "point_weights/proofs/Sums.antt": "row-sums segment-ends",
    "point_bounds/proofs/Inside.antt": "elements-inside",
    "point_bounds/proofs/Files.antt": "files-inside",
    "swept_files/proofs/Kept.antt": "every-sweep",
    "swept_files/proofs/Every.antt": "every-refusal",
    "swept_files/proofs/Accepted.antt": "accepted-obeys accepted-sweeps",
    "swept_files/proofs/Files.antt": "swept-files",
    "swept_files/proofs/Lines.antt": "same_lines",
    "swept_files/proofs/SweptText.antt": "swept-texts",
}
TOKEN = re.compile(r"«[^»]+»|[^\s(){}\[\],;λ⌜⌝]+")


def uses_of(text):
    """What the `use` lines bring: a name to (module, name), and an alias of a module to the module."""
    names, modules = {}, {}
    for path, listed, alias in re.findall(r"(?m)^\s*(?:unfoldable )?(?:pub )?(?:ghost )?use ([^\s{;]+?)(?:\.\{([^}]*)\})?(?: as ([^\s;]+))?;?$", text):
        if alias:
            modules[alias] = path
        for item in filter(None, (part.strip() for part in (listed or "").split(","))):
            name, _, new = item.partition(" as ")
            names[new.strip() or name] = (path, name)
    return names, modules


def file_of(path):
    """The file of specs/ that a module's name stands for; None for the library's and the toolchain's."""
    match = re.fullmatch(r"Rattle\.([^.]+)\.specs\.(.+)", path)
    file = CRATES / match[1] / "specs" / (match[2].replace(".", "/") + ".antt") if match else None
    return file if file and file.exists() else None


class Module:
    """One file of specs/: its definitions by name, with their lines; a case of a `data` stands for it."""

    def __init__(self, file):
        self.text = file.read_text(encoding="utf-8")
        self.names, self.modules = uses_of(self.text)
        self.lines, self.comments, self.owner, self.order = {}, {}, {}, []
        name, comment = None, []
        for number, line in enumerate(self.text.splitlines()):
            if line.startswith("--"):
                comment.append(number)
            elif not line.strip() or re.match(r"(unfoldable )?(pub )?(use|mod|infix[lr]?|unfolding) ", line):
                comment = [] if not line.strip() else comment
                name = None if not line.strip() else name
            else:
                if not line.startswith(" "):
                    kind, name = HEAD.match(line).groups()
                    if name not in self.lines:
                        self.lines[name], self.comments[name], self.owner[name] = [], 0, name
                        self.order.append(name)
                        self.kind = kind
                elif self.kind == "data" and name:
                    for case in line.split(":")[0].split():
                        self.owner[case] = name
                if name:
                    self.lines[name].append(number)
                    self.comments[name] += len(comment)
                comment = []

    def body(self, name):
        rows = self.text.splitlines()
        return "\n".join(rows[n] for n in self.lines[name])


MODULES = {}


def module(file):
    if file not in MODULES:
        MODULES[file] = Module(file)
    return MODULES[file]


def resolve(path, name, seen=()):
    """Where a name of a module is defined: through the modules that pass it on."""
    file = file_of(path)
    if not file or (file, name) in seen:
        return None
    here = module(file)
    if name in here.owner:
        return file, here.owner[name]
    if name in here.names:
        return resolve(*here.names[name], (*seen, (file, name)))
    return None


def named_in(text, names, modules, own=None):
    """The definitions that the words of a text name."""
    parts = {part: name for name in names if "◌" in name for part in name.split("◌") if part}
    found = set()
    for token in TOKEN.findall(text):
        head, _, tail = token.partition(".")
        if own and token in own[1].owner:
            found.add((own[0], own[1].owner[token]))
        elif token in names or token in parts:
            found.add(resolve(*names[parts.get(token, token)]))
        elif tail and head in modules:
            found.add(resolve(modules[head], tail))
    return found - {None}


def ensured(text, function):
    """The `ensures` of a function of the code."""
    start = re.search(rf"(?m)^\s*pub (?:extern \"C\" )?fn {function}\b", text)
    return "\n".join(re.findall(r"ensures\*?(?: \w+)? \{(.*)\}", text[start.start():text.index("\n{", start.start())])) if start else ""


def stated(text, theorem):
    """The statement of a theorem: what stands between its name's colon and its first clause."""
    plain = re.escape(theorem)
    match = re.search(rf"(?ms)^(\s*)(?:(?:pub|abbrev|unfoldable) )*{plain} :(.*?)^\1(?:{plain}|unfolding|opaque)\b", text)
    return match[2] if match else ""


def entry_points():
    """The functions that PROMISES lists as entry points, and those that C links."""
    paper = PROMISES.read_text(encoding="utf-8")
    listed = next(line for line in paper.splitlines() if "No entry point has a `requires`" in line)
    for names, path in re.findall(r"((?:`[^`]+`(?:, | and )?)+) \(([\w/]+\.rt)\)", listed):
        for name in re.findall(r"`([^`]+)`", names):
            yield CRATES / path, name.split("::")[-1]
    linked = CRATES / "kuhlabires" / "src" / "lib.rt"
    for name in re.findall(r'pub extern "C" fn (\w+)', linked.read_text(encoding="utf-8")):
        yield linked, name


def promises():
    yield from entry_points()
    for path, names in (*FUNCTIONS.items(), *THEOREMS.items()):
        for name in names.split():
            yield CRATES / path, name


def believed():
    """Each definition that a promise reaches, as (file, name)."""
    reached, open_ = set(), set()
    for file, name in promises():
        text = file.read_text(encoding="utf-8")
        said = ensured(text, name) if file.suffix == ".rt" else stated(text, name)
        if not said:
            print(f"{file.relative_to(ROOT)}: nothing is said of {name}", file=sys.stderr)
        open_ |= named_in(said, *uses_of(text))
    while open_:
        file, name = at = open_.pop()
        reached.add(at)
        here = module(file)
        open_ |= named_in(here.body(name), here.names, here.modules, (file, here)) - reached
    return reached


def counted():
    """Each file with definitions that have to be believed: the lines of these, those of their comments, and the names of the others."""
    reached = believed()
    for file in sorted({file for file, _ in reached}):
        here = module(file)
        kept = {name for name in here.order if (file, name) in reached}
        rest = [name for name in here.order if name not in kept]
        yield file, sum(len(here.lines[name]) for name in kept), sum(here.comments[name] for name in kept), rest


def named(file):
    return f"{file.relative_to(CRATES).parts[0]}: {file.stem}"


def marked(file):
    return file.read_text(encoding="utf-8").startswith(MARK + "\n")


def wrongly_marked():
    """Each file of specs/ that lacks the mark, has it without being reached, or has it and holds more than what is reached."""
    reached = {file: rest for file, _, _, rest in counted()}
    for file in sorted(CRATES.glob("*/specs/**/*.antt")):
        if marked(file) != (file in reached):
            yield file, "has the mark of what must be believed, and no promise reaches it" if marked(file) else "lacks the mark of what must be believed"
        elif reached.get(file):
            yield file, f"no promise reaches {', '.join(reached[file])}"


def mark():
    reached = {file for file, *_ in counted()}
    for file in sorted(CRATES.glob("*/specs/**/*.antt")):
        text = file.read_text(encoding="utf-8").removeprefix(MARK + "\n")
        file.write_text(f"{MARK}\n{text}" if file in reached else text, encoding="utf-8")


def table():
    """The numbers of the table in docs/PROMISES.md, those of each file and the sums, as they are counted."""
    lines = {named(file): count for file, count, *_ in counted()}
    head, title, rest = PROMISES.read_text(encoding="utf-8").partition("## What must be believed")
    told, found, more = rest.partition("\n## ")
    rows = told.split("\n")
    for number, row in enumerate(rows):
        cells = row.split("|")
        if len(cells) != 5 or not re.fullmatch(r" [\d,]+ ", cells[3]):
            continue
        crate, total = None, 0

        def counted_anew(match):
            nonlocal crate, total
            crate = match[1] or crate
            total += lines.get(f"{crate}: {match[2]}", 0)
            return f"{match[1] + ': ' if match[1] else ''}{match[2]} ({lines.get(f'{crate}: {match[2]}', 0)})"

        cells[2] = re.sub(r"(?:\b([a-z_]+): )?\b([A-Z]\w+) \(\d+\)", counted_anew, cells[2])
        cells[3] = f" {total if cells[2].strip() else sum(lines.values()):,} "
        rows[number] = "|".join(cells)
    PROMISES.write_text(head + title + "\n".join(rows) + found + more, encoding="utf-8")


def main():
    if "--mark" in sys.argv:
        return mark()
    if "--table" in sys.argv:
        return table()
    total = files = commented = 0
    for file, lines, comments, rest in counted():
        total, files, commented = total + lines, files + 1, commented + comments
        where = named(file)
        if "--rest" not in sys.argv:
            print(f"{lines:5} of {len(module(file).text.splitlines()):4}  {where}")
        elif rest:
            print(f"{where}: {', '.join(rest)}")
    print(f"{total:,} lines in {files} files, and {commented:,} of comments above them")


if __name__ == "__main__":
    main()
