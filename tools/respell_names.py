#!/usr/bin/env python3
"""Respells the repository's own definitions and lemmas: words in snake case, as `meetT` to `meet_t` and `search-then-question` to `search_then_question`.

usage: tools/respell_names.py          at the top: rewrites the .antt and .rt files and the must-fail edits below crates/, and prints the names that fall together
       tools/respell_names.py --list   prints each old name with its new one

Types, modules, functions of src/, exported names, strings and the names of goals stay. It goes right after port.py; run again it finds nothing to do.
"""

import re
import sys
from pathlib import Path

DEFINED = re.compile(r"(?m)^[ ]*(?:(?:abbrev|unfoldable|opaque|pub|constructor|data|record|ruleset|private) )*([^\s:{}()\[\];=|,.\"λ]+)(?=(?: [^=:\n]*)? :[ \n])")
CONSTRUCTED = re.compile(r"(?m)^[ ]*(?:pub )?constructor ([^\s:{}();=|,.]+)")
IMPORT = re.compile(r"(?m)^(?:pub |ghost )*use .*\{.*$")
TOKEN = re.compile(r"[^\s{}()\[\];,.:=|\"`/@?!&*+<>~^#$%\\]+")
LOCAL = {  # names bound inside one file that would hide a definition's new name
    "crates/search_theory/proofs/Refusals.antt": {"met_at": "met_here"},
    "crates/search_theory/proofs/Links.antt": {"same_bit": "same_digit"},
}
KEPT = {"append-nil", "not-false", "not-true"}  # the library has lemmas of these names
PLAIN = re.compile(r"[a-z][a-z0-9]*(_[a-z0-9]+)*'*|[A-Z][A-Za-z0-9]*'*")


def snake(name):
    name = name.replace("→", "_to_").replace("≢", "_ne_").replace("≡", "_eq_").replace("≤", "_le_")
    name = re.sub(r"(?<=[a-z0-9₀-₉])(?=[A-Z])", "_", name).replace("-", "_").lower()
    return re.sub(r"__+", "_", name).strip("_")


def own_names(root):
    """The names that specs/ and the lemma files of proofs/ define: definitions, lemmas, fields and constructors."""
    names = set()
    for path in sorted(root.glob("crates/*/specs/**/*.antt")) + sorted(root.glob("crates/*/proofs/*.antt")):
        text = re.sub(r"(?m)^[ ]*--.*$", "", path.read_text())
        names.update(DEFINED.findall(text))
        names.update(CONSTRUCTED.findall(text))
    for path in sorted(root.glob("crates/*/**/*.antt")) + sorted(root.glob("crates/*/src/**/*.rt")):
        names.update(n for line in IMPORT.findall(path.read_text()) for n in re.findall(r" as ([a-z]\w*)", line))
    return names


def renamed(root):
    """A lemma that would get the name of a definition in camel case, or of one that has its name already, ends in `_lem`."""
    names = turned(root)
    camel = {new for old, new in names.items() if "-" not in old}
    renamed = {old: new + "_lem" if "-" in old and new in camel or old == "start-set" else new for old, new in names.items()}
    return {old: new for old, new in renamed.items() if old != new}


def turned(root):
    return {n: snake(n) for n in sorted(own_names(root)) if n not in KEPT and not PLAIN.fullmatch(n) and not n.startswith(("◌", "-", "'")) and re.fullmatch(r"[A-Za-z][\w'₀-₉→≢≡≤-]*", n)}


def files(root):
    for pattern in ("specs/**/*.antt", "proofs/**/*.antt", "src/**/*.rt", "must-fail/*.edit"):
        yield from sorted(root.glob("crates/*/" + pattern))


def main():
    root = Path.cwd()
    names = renamed(root)
    if "--list" in sys.argv:
        print("\n".join(f"{old} {new}" for old, new in names.items()))
        return
    both = {}
    for new in set(names.values()):
        olds = [o for o, n in names.items() if n == new]
        if len(olds) > 1:
            print(f"fall together: {' '.join(olds)} as {new}")
    for path in files(root):
        text = path.read_text()
        old_names = set(TOKEN.findall(text)) & names.keys()
        if not old_names:
            continue
        local = LOCAL.get(str(path.relative_to(root)), {})
        text = TOKEN.sub(lambda m: local.get(m[0], m[0]), text)
        tokens = set(TOKEN.findall(text))
        for old in old_names:
            if names[old] in tokens:
                both.setdefault((old, names[old]), []).append(str(path))
        path.write_text(TOKEN.sub(lambda m: names.get(m[0], m[0]), text))
    for (old, new), places in sorted(both.items()):
        print(f"both stand: {old} and {new} in {' '.join(places)}")


main()
