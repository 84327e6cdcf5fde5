#!/usr/bin/env python3
"""The layer above cites what the layer below promises.

Prints every place where a proof unfolds a definition of a crate below its own, by a line
`unfolding`, by `unfold .. in` or by a function's attribute, and every crate that crates.txt
lets another one know and that it does not use; fails if there is one.  Computed examples and
the computed table of labels are left out: they unfold what they compute.
"""
import pathlib
import re
import sys

ROOT = pathlib.Path(__file__).resolve().parent.parent
CRATES = ROOT / "crates"
DEFINED = re.compile(r"^ *unfoldable (?:pub )?([^\s:]+) *:", re.MULTILINE)
USED = re.compile(r"^use Rattle\.(\w+)\.(?:specs|proofs)\.[^{}\n]*\.\{([^}]*)\}", re.MULTILINE)
UNFOLDING = re.compile(r"^( *)unfolding\b(?P<names>.*(?:\n\1 +\S.*)*)", re.MULTILINE)
UNFOLD_IN = re.compile(r"\bunfold (?P<names>[^()\n]+?) in\b")
ATTRIBUTE = re.compile(r"\bunfolding\(([^()]*)\)")
COMPUTED = {"Apart.antt", "Computed.antt", "Examples.antt", "Interview.antt", "Marks.antt",
            "Reached.antt"}
COMPUTED_TABLE = CRATES / "labels/proofs/whole_table/Answers.antt"


def files_of(crate, *folders):
    """The files of a crate in these of its folders; what `rt` makes lies in another one."""
    return sorted(path for folder in folders for path in (CRATES / crate / folder).rglob("*")
                  if path.suffix in (".rt", ".antt"))


def names_used(text):
    """Each name that a file takes from a crate: what it is called here, and the crate."""
    found = {}
    for crate, names in USED.findall(text):
        for name in names.split(","):
            words = name.split()
            if words:
                found[words[-1]] = crate
    return found


def unfolded_below(crate, path):
    """The definitions of other crates that a file of proofs unfolds, each with its line and crate."""
    text = path.read_text()
    used = names_used(text)
    own = set(DEFINED.findall(text))
    for form in (UNFOLDING, UNFOLD_IN):
        for match in form.finditer(text):
            line = text.count("\n", 0, match.start()) + 1
            for name in match["names"].split():
                below = used.get(name, crate)
                if below != crate and name not in own:
                    yield line, name, below


def unfolded_by_attribute(crate, path):
    """The same for a file of source, where an attribute names a definition by its path."""
    text = path.read_text()
    for match in ATTRIBUTE.finditer(text):
        line = text.count("\n", 0, match.start()) + 1
        for name in match[1].split(","):
            below = name.split("::")[0].strip()
            if below not in ("crate", crate):
                yield line, name.split("::")[-1].strip(), below


def unused(crate, known):
    """The crates that a line of crates.txt names for a crate which uses nothing of them."""
    texts = [path.read_text() for path in files_of(crate, "src", "specs", "proofs")]
    for name in known:
        use = re.compile(rf"Rattle\.{name}\b|\b{name}::")
        if not any(use.search(text) for text in texts):
            yield name


def main():
    found = 0
    for line in (ROOT / "crates.txt").read_text().splitlines():
        if line.startswith("#"):
            continue
        head, known = line.split(":")
        crate = head.split()[0]
        for name in unused(crate, known.split()):
            found += 1
            print(f"crates.txt: {crate} does not use {name}")
        places = [(path, place) for path in files_of(crate, "src")
                  for place in unfolded_by_attribute(crate, path)]
        for path in files_of(crate, "specs", "proofs"):
            if path.name not in COMPUTED and path != COMPUTED_TABLE:
                places += [(path, place) for place in unfolded_below(crate, path)]
        for path, (line_number, name, below) in places:
            found += 1
            print(f"{path.relative_to(CRATES)}:{line_number}: unfolds {name} of {below}")
    if found:
        sys.exit(f"layers: {found} places")
    print("layers: no definition is unfolded above its crate, and no crate knows one it does not use")


if __name__ == "__main__":
    main()
