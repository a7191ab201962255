"""The names that a file of crates/ brings in and does not use.

    python3 .ci/imports.py          lists them, and fails where there are any
    python3 .ci/imports.py --fix    takes them out (`rt fmt` then lays out what is left)

What a file passes on (`pub use`) counts as used. An operator is used where one of its parts stands, a trait of std where one of its methods or macros does.
"""

import re
import sys
from pathlib import Path

ROOT = Path(__file__).resolve().parent.parent
USE = re.compile(r"(?m)^ *(?:unfoldable )?(?:ghost )?use ([^\s{};]+?)(?:(?:\.|::)\{([^}]*)\})?(?: as ([^\s;]+))?;?$")
# Words between what parts them: in a definition, where a colon or a point is a part of a name, and in code.
TOKENS = [re.compile(r"«[^»]+»|\[\]|[^\s(){}\[\],;λ]+"), re.compile(r"[^\s(){}\[\],;λ.:]+"), re.compile(r"\w+")]

TRAITS = {
    "Read": {"read", "read_exact", "read_to_end", "read_to_string", "bytes", "take"},
    "Write": {"write", "writeln", "write_all", "write_str", "write_fmt", "flush"},
    "BufRead": {"read_line", "read_until", "lines", "split", "fill_buf", "consume"},
}


def files():
    """The files with code, definitions and proofs, without what rt keeps in out/."""
    for crate in sorted((ROOT / "crates").iterdir()):
        for part, ending in (("proofs", "antt"), ("specs", "antt"), ("src", "rt")):
            yield from sorted((crate / part).glob(f"**/*.{ending}"))


def tokens(text):
    """The words of a text without its `use` items, comments apart."""
    said = re.sub(r"(--|//).*", "", USE.sub("", text))
    return {token for pattern in TOKENS for token in pattern.findall(said)}


def is_used(name, said):
    parts = [part for part in name.split("◌") if part]
    return name in said or not TRAITS.get(name, set()).isdisjoint(said) or ("◌" in name and not name.startswith("«") and any(part in said for part in parts))


def kept(item, said):
    """The text of a `use` item without the names that are not used; None where none is left."""
    path, listed, alias = item.groups()
    last = re.split(r"::|\.", path)[-1]
    if listed is None:
        return item[0] if is_used(alias or last, said) else None
    names = [name.strip() for name in listed.split(",") if name.strip()]
    left = [name for name in names if is_used(last if name == "self" else name.split(" as ")[-1], said)]
    if left == names:
        return item[0]
    return item[0].replace("{" + listed + "}", "{" + ", ".join(left) + "}") if left else None


def main():
    found = 0
    for file in files():
        text = file.read_text(encoding="utf-8")
        said = tokens(text)
        changes = [(item, new) for item in USE.finditer(text) if (new := kept(item, said)) != item[0]]
        found += len(changes)
        if "--fix" not in sys.argv:
            for item, _ in changes:
                number = text.count("\n", 0, item.start()) + 1
                print(f"{file.relative_to(ROOT)}:{number}: not all is used of {' '.join(item[0].split())}")
        elif changes:
            for item, new in reversed(changes):
                end = item.end() + (new is None)
                text = text[: item.start()] + (new or "") + text[end:]
            file.write_text(text, encoding="utf-8")
    return 1 if found and "--fix" not in sys.argv else 0


if __name__ == "__main__":
    sys.exit(main())
