#!/usr/bin/env python3
"""How much of specs/ has to be read to know what a definition says.

    tests/closure.py                    the page of the headline, which fails where it rests on too much
    tests/closure.py CRATE FILE NAME    any definition, as plfs_program Course Course

It follows names through `use` lines, up to the library and to types that code declares. A word that names a definition
counts as a use of it, so it may count a little too much, and never too little. It reads files of the repository alone.
Lines are those that aren't empty and no comments."""

import collections
import re
import sys
from pathlib import Path

TOP = Path(__file__).resolve().parent.parent
PAGE = ("headline", "Headline", "Headline")
MOST = {"definitions": 180, "lines": 750, "crates": 7}

BEGINS = re.compile(r"(?:abbrev|unfoldable|record|data)(?: pub)? (\w+)|pub (?:abbrev|unfoldable|record|data) (\w+)")
USES = re.compile(r"^(?:pub )?use Rattle\.(\w+)\.specs\.([\w.]+)\.\{([^}]*)\}", re.M)


class Definitions:
    """The definitions of all crates, each by its crate, file and name, and what each file has from others."""

    def __init__(self, top):
        self.lines, self.brought = {}, {}
        for file in sorted(top.glob("crates/*/specs/**/*.antt")):
            crate = file.relative_to(top).parts[1]
            module = ".".join(file.relative_to(top / "crates" / crate / "specs").with_suffix("").parts)
            if module != "Lib":
                self.read(crate, module, file.read_text())

    def read(self, crate, module, text):
        brought = self.brought[crate, module] = {}
        for owner, path, names in USES.findall(text):
            for name in filter(None, (name.strip() for name in names.split(","))):
                whole, _, here = name.partition(" as ")
                brought[here.strip() or whole.strip()] = (owner, path, whole.strip())
        held = None
        for line in text.split("\n"):
            if begins := BEGINS.match(line):
                held = self.lines[crate, module, begins[1] or begins[2]] = [line]
            elif re.match(r"(?:pub )?use ", line):
                held = None
            elif held is not None and line.strip() and not line.strip().startswith("--"):
                held.append(line)

    def named_by(self, key):
        """The definitions that one names, and the types of code."""
        crate, module, own = key
        for word in set(re.findall(r"[A-Za-z_]\w*", "\n".join(self.lines[key]))):
            if word != own and (crate, module, word) in self.lines:
                yield crate, module, word
            elif word in self.brought[crate, module]:
                yield self.brought[crate, module][word]

    def closure(self, first):
        """All that one rests on, itself among them."""
        found, waiting = set(), [first]
        while waiting:
            key = waiting.pop()
            if key not in found and key in self.lines:
                found.add(key)
                waiting += self.named_by(key)
        return found

    def sizes(self, first):
        found = self.closure(first)
        sizes = {"definitions": len(found), "lines": sum(len(self.lines[key]) for key in found), "crates": len({key[0] for key in found})}
        return sizes, collections.Counter(key[0] for key in found)


def faults(top):
    """Where the page rests on more than may be asked of its reader, a line each."""
    definitions = Definitions(top)
    if PAGE not in definitions.lines:
        return [f"there is no definition {'::'.join(PAGE)}"]
    sizes, _ = definitions.sizes(PAGE)
    return [f"{PAGE[2]} rests on {sizes[what]} {what}, and at most {most} are wanted" for what, most in MOST.items() if sizes[what] > most]


def main(words):
    key = tuple(words) if words else PAGE
    definitions = Definitions(TOP)
    if key not in definitions.lines:
        print(f"closure: there is no definition {'::'.join(key)}")
        return 2
    sizes, crates = definitions.sizes(key)
    print(f"{key[2]}: " + ", ".join(f"{number} {what}" for what, number in sizes.items()))
    print("  " + ", ".join(f"{crate} {number}" for crate, number in crates.most_common()))
    found = faults(TOP) if key == PAGE else []
    for fault in found:
        print(f"closure: {fault}")
    return min(len(found), 99)


if __name__ == "__main__":
    sys.exit(main(sys.argv[1:]))
