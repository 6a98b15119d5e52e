#!/usr/bin/env python3
"""Brings this repository's own definitions and lemmas to the spelling of today's Rattle, after port.py has run.

  python3 tools/respell.py        at the top of the repository, once, with everything committed or at least kept

Names that specs/ and proofs/ declare are written in snake case: a dash between two words becomes a low line, and a capital in the
middle of a name that begins with a small letter becomes a low line and a small letter. Types, facts and modules keep their capitals;
what src/ declares keeps its name, and so do strings and the goals that the check names. Where two names would fall together,
TOGETHER says what the second is called.
"""
import os
import re
import sys

# names that would fall together with another of ours
TOGETHER = {
    "with-csr0": "with_csr0_lem",           # a law about withCsr0
    "with-written": "with_written_lem",     # a law about withWritten
    "sent-bits": "sent_bits_lem",           # a law about sentBits
}

# declared inside a proof, in another crate than the definition of that name
APART = {"one_more"}

TOKEN = re.compile(r"[^\s(){};,.⌜⌝\"`]+")
DECLARED = (
    re.compile(r"^\s*(?:(?:abbrev|unfoldable|pub|data|record)\s+)*([^\s(){}:;,.]+)\s*(?:\([^()]*\)\s*|\{[^{}]*\}\s*)*:\s", re.M),
    re.compile(r"^\s*(?:(?:abbrev|unfoldable|pub)\s+)*((?:[^\s(){}:;,.]+\s+)+):\s", re.M),
)
KEYWORDS = {"abbrev", "unfoldable", "pub", "data", "record", "use", "let", "module", "infix", "infixl", "infixr"}


def files(*endings):
    for here, folders, names in os.walk("crates"):
        folders[:] = sorted(f for f in folders if f != "out")
        for name in sorted(names):
            if name.endswith(endings):
                yield os.path.join(here, name)


def declared():
    """What specs/ and the laws of proofs/ declare."""
    found = set()
    for path in files(".antt"):
        if path.endswith("/Proof.antt"):
            continue
        text = open(path, encoding="utf-8").read()
        for form in DECLARED:
            for match in form.finditer(text):
                found.update(w for w in match.group(1).split() if w not in KEYWORDS)
    return found


def short_names():
    """The short names that a file of laws gives to modules."""
    found = set()
    for path in files(".antt"):
        if not path.endswith("/Proof.antt"):
            found.update(re.findall(r"^\s*use \S+ as (\S+)", open(path, encoding="utf-8").read(), re.M))
    return found


def snake(name):
    """The name in snake case."""
    if name in TOGETHER:
        return TOGETHER[name]
    name = name.replace("-", "_")
    if re.match(r"[a-z◌]", name):
        name = re.sub(r"(?<=[a-z0-9])([A-Z])", lambda m: "_" + m.group(1).lower(), name)
    return name


def mapping():
    old = declared()
    new = {}
    for name in sorted(old):
        if name.startswith("-") or re.match(r"[0-9]", name):
            continue
        if snake(name) != name:
            new[name] = snake(name)
    for name in sorted(short_names()):
        if snake(name) != name:
            new.setdefault(name, snake(name))
    for path in files(".antt"):
        for name in re.findall(r"[^\s(){};,.]*[a-z][^\s(){};,.]*◌[^\s(){};,.]*|◌[^\s(){};,.]*[a-z][^\s(){};,.]*", open(path, encoding="utf-8").read()):
            new[name] = snake(name)
            for part in name.split("◌"):    # where a mixfix name is used its parts stand alone
                new[part] = snake(part)
    new = {a: b for a, b in new.items() if a != b and re.search("[A-Za-z]", a)}
    taken = {}
    for name in sorted(old):
        taken.setdefault(new.get(name, name), []).append(name)
    together = {k: v for k, v in taken.items() if len(v) > 1 and k not in APART}
    return new, together


def respelled(text, new):
    return TOKEN.sub(lambda m: new.get(m.group(0), m.group(0)), text)


def antt(text, new):
    """Code is respelled whole, a comment only where it names a definition in camel case: a dash there is English."""
    camel = {k: v for k, v in new.items() if "-" not in k}
    out = []
    for line in text.split("\n"):
        code, dash, comment = line.partition("-- ") if re.match(r"\s*-- ", line) or " -- " in line else (line, "", "")
        out.append(respelled(code, new) + dash + respelled(comment, camel))
    return "\n".join(out)


def clauses(text, new):
    """In src/ only what is no Rust: the lines that bring names in, and the clauses of a contract."""
    out, inside = [], 0
    for line in text.split("\n"):
        begins = re.match(r"\s*(ghost |requires\b|ensures\b|#\[tactic)", line)
        if begins or inside:
            inside = max(0, inside + line.count("{") - line.count("}")) if (inside or not line.lstrip().startswith("ghost use")) else 0
            line = respelled(line, new)
        out.append(line)
    return "\n".join(out)


def main():
    new, together = mapping()
    for name, both in together.items():
        print("fall together:", name, "<-", ", ".join(both))
    if together and "--force" not in sys.argv:
        sys.exit(1)
    if "--list" in sys.argv:
        for name in sorted(new):
            print(name, "->", new[name])
        return
    for path in files(".antt", ".rt"):
        text = open(path, encoding="utf-8").read()
        turned = antt(text, new) if path.endswith(".antt") else clauses(text, new)
        if turned != text:
            open(path, "w", encoding="utf-8").write(turned)
    print(len(new), "names respelled")


main()
