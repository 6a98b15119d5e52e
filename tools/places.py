#!/usr/bin/env python3
"""Counts the places in src/ that docs/DESIGN-PASS.md speaks of, point by point: `places.py` the numbers, `places.py N` the lines of point N.

It only reads text: a place is a line that a pattern finds, and whether it should change is for a reader."""
import glob
import re
import sys

POINTS = [
    ("1a own enums", r"^(pub )?enum [A-Z]"),
    ("1b words of an answer as numbers", r"^pub const [A-Z_]+: u8 = [0-9]+;"),
    ("1c the number of a refusal, a word, a kind or a report",
     r"\b(number|word|kind|wire|report|result): u(8|32)|^ *(pub(\(crate\))? )?fn [a-z_]*(number|refusal|kind|unless|either)\(.*-> u8"),
    ("1d fields and parameters that are flags", r"^    (pub )?[a-z]+: bool,"),
    ("3a loops by `while` and `loop`", r"\bwhile |\bloop \{"),
    ("3b elements written out one by one", r"\[0\].*\[1\].*\[2\]|^ *f\[\d+\] = |\[0\] == 0\)|\(a\[0\] == b\[0\]\)"),
    ("4a functions that compare by hand",
     r"fn (is_alike|same|same_card|is|is_fresh|is_unloaded|is_before|is_head|is_rest)\("),
    ("4b functions that convert, print or are named so",
     r"fn [a-z0-9_]+_(of|words)\(|fn from_words|fn (arrival|turn)_event\(|fn packed|fn weigh|fn tell|fn state_in|fn put_state|fn six_bytes"),
    ("5b functions that take a memory and a ring", r"memory: &(mut )?\[u8\], ring: Ring"),
    ("6 functions that take bytes and a length or a place beside them",
     r"(m|f|out|memory): &(mut )?(Bytes|\[u8\]), (size|n|room|from|at): usize"),
    ("7 tables of functions and switches on a kind", r"\bdyn |\bfn\(|Box<|match kind\("),
]


def lines():
    for name in sorted(glob.glob("crates/*/src/**/*.rt", recursive=True)):
        for n, line in enumerate(open(name), 1):
            yield name, n, line.rstrip("\n")


def functions():
    """Each function's place and text, from its `fn` to the brace that closes it."""
    for name in sorted(glob.glob("crates/*/src/**/*.rt", recursive=True)):
        rows = open(name).read().split("\n")
        for n, row in enumerate(rows):
            if re.match(r"^ *(pub(\(crate\))? )?(extern \"C\" )?fn ", row):
                indent = re.match(r" *", row).group()
                end = next(k for k in range(n, len(rows)) if rows[k] == indent + "}")
                yield f"{name}:{n + 1}", "\n".join(rows[n:end + 1])


def shape(text):
    """A body with its numbers, constants, types and calls made alike; what differs then differs in more than those."""
    body = text[text.index("\n") + 1:]
    body = re.sub(r"^ *(ensures|requires).*$", "", body, flags=re.M)
    body = re.sub(r"0x[0-9A-Fa-f_]+|\b[0-9]+\b", "N", body)
    body = re.sub(r"\bu(8|16|32|64|size)\b|\b[A-Z][A-Za-z0-9_]*\b", "T", body)
    body = re.sub(r"\b[a-z_0-9]+\(", "F(", body)
    return re.sub(r"\s+", " ", body)


def twins():
    groups = {}
    for place, text in functions():
        if text.count("\n") >= 4:
            groups.setdefault(shape(text), []).append(place)
    return [g for g in groups.values() if len(g) > 1]


def constants():
    seen = {}
    for name, n, line in lines():
        if m := re.match(r"^(?:pub )?const ([A-Z_]+: .*)", line):
            seen.setdefault(m.group(1), []).append(f"{name}:{n}")
    return [f"{c} at {', '.join(p)}" for c, p in seen.items() if len(p) > 1]


def asked():
    seen = {}
    for name, n, line in lines():
        for m in re.finditer(r"requires(?: [a-z_]+)? \{ (.*) \}", line):
            for fact in m.group(1).split(" × "):
                seen.setdefault(fact.strip("()"), []).append(f"{name}:{n}")
    return [f"{f} at {', '.join(p)}" for f, p in seen.items() if len(p) > 2]


def main():
    wanted = sys.argv[1] if len(sys.argv) > 1 else ""
    found = [(title, [f"{f}:{n}: {t.strip()}" for f, n, t in lines() if re.search(p, t)]) for title, p in POINTS]
    found += [
        ("2a functions whose bodies differ in a name, a type or a number", [", ".join(g) for g in twins()]),
        ("2b constants that more than one place declares", constants()),
        ("5a facts that three or more functions ask", asked()),
    ]
    for title, places in sorted(found):
        if title.startswith(wanted):
            print(f"{len(places):4} {title}")
            if wanted:
                print("".join(f"       {p}\n" for p in places), end="")


main()
