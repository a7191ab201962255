"""Brings the repository's own definitions and lemmas to today's spelling: words in snake case, types in camel case.

    python3 tools/respell.py          run once, at the top, after port.py

A name of camel case that begins small becomes snake case (`readLines`, `read_lines`); a definition whose value is a type begins with a
capital (`linesIs`, `LinesIs`). It goes by text: files of specs/ and proofs/, and of src/ all but strings. Functions of src/, exported
names, strings, inputs and outputs keep their names: none of them is in camel case that begins small.
A lemma that would get the name of a definition beside it is renamed first (LEMMAS).
"""

import re
from pathlib import Path

ROOT = Path(__file__).resolve().parent.parent
# The definitions whose value is a type: old name, new name. Where a file is given, the name stands for something else in other files.
TYPES = {
    name: name[0].upper() + name[1:]
    for name in """vertexStep vertexIs vertexInto turnIs storedIs stepIs settledIs settingLineIs secondIs rowIs rowStep quietStep parmIs
    parmRowIs partIs openIs numbersIs numberStepIs notCurve namesEnd loopIs loopStep linesIs lineIs keyIs formEnds familyIs exactIs endStep
    elementStep elementIs curveIs countedIs cornersIs cornerPartIs controlsAre closedIs bodyIs bodyStep bodyCheckIs beginsAt aheadIs
    afterBlanksIs adviceIs""".split()
}
TYPES_IN = {
    "read_vertex_lines/specs/Holding.antt": {"opened": "HoldsOpened"},
    "read_body_lines/proofs/Parameters.antt": {"Holding.opened": "Holding.HoldsOpened"},
    "read_element_lines/proofs/Settings.antt": {"opened": "HoldsOpened", "quiet": "IsQuiet"},
    "read_elements/proofs/BodyLines.antt": {"says-body": "SaysBody"},
    "read_dispatch/proofs/Diagnosed.antt": {"stops": "Stops"},
    "read_dispatch/proofs/Sorted.antt": {"stops": "Stops"},
    "read_rooms/proofs/Held.antt": {"takes": "Takes"},
    "read_rooms/proofs/Taken.antt": {"takes": "Takes"},
    "read_state/proofs/Bounds.antt": {"few": "FewEnough"},
    "read_state/proofs/Lines.antt": {"few": "FewEnough"},
}
# Lemmas whose name is that of a definition once this is in snake case: the new name, and the files that name the lemma.
LEMMAS = {
    "number_fits": ("number_fits-says", "references/proofs/NumbersBack tidy_form/proofs/Words"),
    "in_order": ("ordered", "record_rules/proofs/Facts polyline/proofs/Demanded sampler/proofs/Obeyed"),
    "numbers_of": (
        "numbers_of-map",
        "model/proofs/Values read_vertices/proofs/Parse sampled_files/proofs/Vertices tidy_form/proofs/Back tidy_form/proofs/Ready read_bodies/proofs/Says",
    ),
    "goes_on": ("goes_on-words", "tidy_agreement/proofs/Streams"),
    "model_in": ("model_in-placed", "model/proofs/In tidy_agreement/proofs/TidyFrom tidy_form/proofs/TablesAgree"),
    "written_after": ("written_after-spaced", "tidy_writer/proofs/NamedLines"),
    "none_dropped": ("nothing_dropped", "swept_files/proofs/AllNamed"),
    "each_part": ("each_part-begun", "sampled_files/proofs/Loops"),
    "each_bare": ("each_bare-corners", "record_rules/proofs/EachBare"),
    "group_lines": ("group_lines-go", "tidy_agreement/proofs/Elements tidy_writer/proofs/NamedLines"),
    "on_fine": ("on_fine-both", "read_element_lines/proofs/SettingEnds"),
    "by_row": ("by_row-both", "read_element_lines/proofs/SettingEnds"),
    "rest_in": ("rest_in-gap", "text/proofs/Places text/proofs/Walk"),
    "begun_ok": ("begun_ok-laid", "sampled_files/proofs/Loops sampled_files/proofs/Surfaces"),
    "point_at": ("point_at-place", "polyline/proofs/Demanded"),
}
EXTRA = {
    # beside a call of the function `each_bare`
    "record_rules/proofs/corners/corners_obey/Proof.antt": [("EachBare.{each_bare}", "EachBare.{each_bare-corners}"), ("∙ each_bare a.used", "∙ each_bare-corners a.used")],
}
WORD = r"[^\s(){}\[\],;λ⌜⌝.:«»|`\"]"


def snake(name):
    return re.sub(r"(?<=[a-z0-9'])([A-Z])", lambda m: "_" + m[1].lower(), name)


def respelled(text):
    def word(m):
        parts = m[0].split("-")
        return "-".join(TYPES.get(p) or (snake(p) if re.fullmatch(r"[a-z][A-Za-z0-9_'?]*", p) else p) for p in parts)

    # a `use` line's path keeps its modules, which begin with capitals; a name of the toolchain's libraries keeps its spelling
    return re.sub(r"(?<![^\s(){}\[\],;λ⌜⌝.:«»|`\"])" + WORD + "+", word, text)


def renamed(text, table):
    for old, new in table.items():
        text = re.sub(rf"(?<!{WORD}){re.escape(old)}(?!{WORD})", lambda m: new, text)
    return text


def code(text):
    """The text of a .rt file, its strings and byte strings as they are."""
    parts = re.split(r'(b?"(?:[^"\\]|\\.)*")', text)
    return "".join(part if i % 2 else respelled(part) for i, part in enumerate(parts))


def main():
    crates = ROOT / "crates"
    for file in sorted([*crates.glob("*/specs/**/*.antt"), *crates.glob("*/proofs/**/*.antt"), *crates.glob("*/src/**/*.rt")]):
        text = old = file.read_text(encoding="utf-8")
        path = str(file.relative_to(crates))
        text = renamed(text, {name: new for name, (new, files) in LEMMAS.items() if path.removesuffix(".antt") in files.split()})
        text = renamed(text, TYPES_IN.get(path, {}))
        for before, after in EXTRA.get(path, ()):
            assert before in text, (path, before)
            text = text.replace(before, after)
        text = code(text) if file.suffix == ".rt" else respelled(text)
        if text != old:
            file.write_text(text, encoding="utf-8")
            print(path)


main()
