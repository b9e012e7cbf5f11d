#!/usr/bin/env python3
"""Checks that the documents follow the crates, and lists what they lack. It proves nothing. `.ci/run` runs it after the gate.

- docs/LAYERS.md and docs/PROVED.md have each crate of crates.txt once and in that order, and LAYERS.md says of each what
  crates.txt says that it stands on.
- docs/DEFINITIONS.md has each definition that the contract of a public function names, and what docs/GLOSSARY.md points at
  is there.
- No line of a document is longer than 200 characters, and no cell of README.md longer than 100.
"""

import os
import re
import sys

TOP = os.path.dirname(os.path.dirname(os.path.abspath(__file__)))


def read(*names):
    with open(os.path.join(TOP, *names), encoding="utf-8") as it:
        return it.read()


def crates():
    """Returns the crates with what each stands on, lowest first."""
    found = {}
    for line in read("crates.txt").splitlines():
        name, _, below = line.split("#")[0].partition(":")
        if name.strip():
            found[name.split()[0]] = below.split()
    return found


def check_order(document, found, wanted):
    """Yields what is missing, stands twice or stands out of order."""
    for name in wanted:
        if found.count(name) != 1:
            yield f"{document} has `{name}` {found.count(name)} times as a heading"
    known = [name for name in found if name in wanted]
    if known != [name for name in wanted if name in found]:
        yield f"{document} has the crates in another order than crates.txt"
    for name in found:
        if name not in wanted:
            yield f"{document} has `{name}`, which is no crate"


def check_layers(below):
    text = read("docs", "LAYERS.md").partition("## The crates")[2].partition("\n## ")[0]
    items = re.split(r"^- ", text, flags=re.M)[1:]
    heads = [re.findall(r"\*\*`(\w+)`\*\*", item) for item in items]
    yield from check_order("docs/LAYERS.md", [name for head in heads for name in head], list(below))
    for head, item in zip(heads, items):
        stands = re.search(r"\(((?:on )?`[^)]*)\)", item)
        if len(head) == 1 and stands and sorted(re.findall(r"`(\w+)`", stands[1].split(";")[0])) != sorted(below[head[0]]):
            yield f"docs/LAYERS.md says of `{head[0]}` another list than crates.txt"


def check_proved(below):
    found = [name for line in re.findall(r"^## (`.*)$", read("docs", "PROVED.md"), flags=re.M) for name in re.findall(r"`(\w+)`", line)]
    yield from check_order("docs/PROVED.md", found, list(below))


def exported(crate):
    """Returns the names that a library shows, or None for a program, whose public functions all count."""
    if not os.path.exists(os.path.join(TOP, "crates", crate, "src", "lib.rt")):
        return None
    names = re.findall(r"^pub use [\w:]*?(?:\{([^}]*)\}|(\w+));", read("crates", crate, "src", "lib.rt"), flags=re.M)
    return {word.strip() for group in names for half in group for word in half.split(",") if word.strip()}


def public_contracts(text, shown):
    """Yields the contracts of the functions that a library shows, methods of its types among them."""
    owner = None
    for part in re.split(r"^(?=impl\b|pub trait\b|\}|(?: {4})?pub fn|    fn)", text, flags=re.M):
        head = part.split("\n", 1)[0]
        if head.startswith("impl") or head.startswith("pub trait"):
            words = re.sub(r"<[^{]*?>", "", head.replace("pub trait", "impl")).split("{")[0].split()
            owner = words[-1] if words else None
        elif head.startswith("}"):
            owner = None
        name = re.match(r" *(?:pub )?fn (\w+)", part)
        if name and (shown is None and " pub" in " " + head or owner in (shown or ()) or not owner and name[1] in (shown or ())):
            yield part.split("\n    {\n")[0].split("\n{\n")[0]


def public_words(crate):
    """Returns the definitions of the project that contracts of the crate's public functions name."""
    words = set()
    shown = exported(crate)
    folder = os.path.join(TOP, "crates", crate, "src")
    for name in sorted(os.listdir(folder)):
        text = read("crates", crate, "src", name)
        imported = set()
        # What stands in specs.declared is a type of the code.
        for path, names in re.findall(r"ghost use Rattle\.(\w+)\.specs\.(?!declared)[\w.]*\{([^}]*)\}", text):
            if os.path.isdir(os.path.join(TOP, "crates", path)):
                imported.update(word.split(" as ")[-1].strip() for word in names.split(","))
        for contract in public_contracts(text, shown):
            clauses = re.split(r"\b(?:ensures|requires)\b", contract, maxsplit=1)[1:]
            words.update(word for clause in clauses for word in re.findall(r"[\w-]+", clause) if word in imported)
    return words


def check_definitions(below):
    text = read("docs", "DEFINITIONS.md")
    for crate in below:
        for word in sorted(public_words(crate)):
            if not re.search(r"`" + re.escape(word) + r"\b", text):
                yield f"docs/DEFINITIONS.md lacks `{word}`, which a contract of {crate} names"


def check_glossary():
    for path in re.findall(r"`(\w+/(?:src|specs)/[\w.]+)`", read("docs", "GLOSSARY.md")):
        file = os.path.join(TOP, "crates", path)
        if not os.path.exists(file) and not os.path.exists(file + ".antt"):
            yield f"docs/GLOSSARY.md names {path}, which is not there"


def check_lines():
    names = ["README.md"] + [os.path.join("docs", name) for name in sorted(os.listdir(os.path.join(TOP, "docs")))]
    for name in names:
        for number, line in enumerate(read(name).splitlines(), 1):
            if name == "README.md" and line.startswith("|") and any(len(cell) > 102 for cell in line.split("|")):
                yield f"{name}:{number} has a cell of more than 100 characters"
            if len(line) > 200 and not line.startswith("|"):
                yield f"{name}:{number} is longer than 200 characters"
    if len(read("README.md").split()) > 900:
        yield "README.md has more than 900 words"


def main():
    below = crates()
    faults = [*check_layers(below), *check_proved(below), *check_definitions(below), *check_glossary(), *check_lines()]
    for fault in faults:
        print(fault)
    print(f"{len(faults)} faults in the documents")
    return 1 if faults else 0


if __name__ == "__main__":
    sys.exit(main())
