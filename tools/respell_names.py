#!/usr/bin/env python3
"""Respells this repository's own definitions and lemmas, once, when it is brought to the Rattle of today.

usage: python3 tools/respell_names.py          at the top of the repository, after the kit's own port script

Functions, lemmas, fields and constructors get snake case (drawOf and draw-of become draw_of), types and facts
upper camel case (Limit-largest becomes LimitLargest). A file's names are those that it defines and those that it
imports from a crate of this repository; names of the library stay. Where two names of a file fall together, they
are printed and nothing is written; a line 'also there' names a file that is written, to be read.
"""
import collections
import glob
import os
import re
import sys

# Lemmas that would have their function's name.
LEMMAS = (
    "all_done at_rest block-fault copy-lost draw-at free-sized goes_on in-range in-stock known-kind left-lost not_free "
    "number-at one-lost pending-sized refused-early refused-left refused-right report-done report-refused right-last "
    "slot-at slot-bytes slots-after slots-fault stayed-offline stock-after stock-byte store-block store-header "
    "store-plan take-header take-plan tape-of too_short with_call"
).split()
# Other names that would fall together.
OTHERS = {"number-of": "answered_number", "place-of": "answered_place", "Slots-read": "SlotsAreRead"}
NAME = r"[^\s.,;:(){}\[\]⌜⌝`\"|@«»λ]+"
SIGNED = re.compile(rf"^ *(?:(?:abbrev|unfoldable|pub) )*(?:(data|record) )?({NAME}) +(?:: |:$|[({{].*)")
IMPORT = re.compile(r"^(?:ghost )?(?:pub )?use ([^\s;{]+?)(?:\.\{([^}]*)\})?;?$", re.M)
MADE = re.compile(r": (goal|need|given)\.")


def respelled(name):
    if name in OTHERS:
        return OTHERS[name]
    if name in LEMMAS:
        return name.replace("-", "_") + "_lem"
    if not re.fullmatch(r"[A-Za-z][A-Za-z0-9_'-]*", name):
        return name
    if name[0].isupper():
        return "".join(p[0].upper() + p[1:] for p in name.split("-") if p)
    flat = name.replace("-", "_")
    return re.sub(r"(?<=[a-z0-9])([A-Z])", lambda m: "_" + m.group(1).lower(), flat)


def files():
    for kind in ("specs/**/*.antt", "proofs/**/*.antt", "src/**/*.rt"):
        yield from sorted(glob.glob(f"crates/*/{kind}", recursive=True))


def defined(text):
    out = set()
    for line in text.split("\n"):
        m = SIGNED.match(line)
        if not m or MADE.search(line):
            continue
        if m.group(1) is None and not re.match(rf"^ *(?:(?:abbrev|unfoldable|pub) )*{re.escape(m.group(2))} +:", line):
            continue
        out.add(m.group(2))
    return out


def fields(text):
    """The fields and constructors of the records and data types of a file."""
    out, inside = set(), False
    for line in text.split("\n"):
        if re.match(r"^(pub )?(record|data) ", line):
            inside = True
        elif line and not line[0].isspace():
            inside = False
        elif inside:
            m = SIGNED.match(line)
            if m:
                out.add(m.group(2))
    return out


def main():
    crates = {os.path.basename(c) for c in glob.glob("crates/*")}
    texts = {p: open(p, encoding="utf-8").read() for p in files()}
    mine = {p: defined(t) if p.endswith(".antt") else set() for p, t in texts.items()}
    every = set().union(*mine.values())
    parts = set().union(*(fields(t) for p, t in texts.items() if p.endswith(".antt")))
    spelled = collections.defaultdict(set)
    for p, names in mine.items():
        for n in names:
            spelled[(p, respelled(n))].add(n)
    clash = {k: v for k, v in spelled.items() if len(v) > 1}
    for k, v in sorted(clash.items()):
        print("falls together:", k, sorted(v))
    if clash:
        return 1
    for p, text in texts.items():
        own, foreign = set(mine[p]), set()
        for m in IMPORT.finditer(text):
            path = m.group(1).split(".")
            names = [x.strip().split(" as ") for x in (m.group(2) or path[-1]).split(",")]
            here = len(path) > 2 and path[0] == "Rattle" and path[1] in crates and path[2] in ("specs", "proofs") and "declared" not in path
            for n in names:
                (own if here else foreign).add(n[-1] if not here else n[0])
                if here and len(n) > 1:
                    own.add(n[1])
        names = {n for n in own - foreign if respelled(n) != n and (n in every)}
        both = {respelled(n) for n in names} & (own | foreign)
        if both:
            print("also there:", p, sorted(both))
        dotted = {n for n in parts if respelled(n) != n}

        def word(m):
            before, w = m.group(1), m.group(2)
            if before == ".":
                return before + (respelled(w) if w in dotted else w)
            return before + (respelled(w) if w in names or (w in dotted and w not in foreign) else w)

        new = re.sub(rf"(^|[^\w'◌-])([A-Za-z][\w'-]*)", word, text)
        if new != text:
            with open(p, "w", encoding="utf-8") as f:
                f.write(new)
    return 0


if __name__ == "__main__":
    sys.exit(main())
