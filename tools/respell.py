#!/usr/bin/env python3
"""Brings the repository's own definitions and lemmas to the spelling of today's Rattle.

usage: python3 tools/respell.py [--look]       at the top of the repository

Run once, after the kit's own script has turned the language's spelling. A value in camel case becomes
snake case (checkBits: check_bits); a dash stays where it joins two names that are declared, and becomes
an underscore elsewhere (packed-reads stays, check-small becomes check_small). Types, modules, functions
of src/, strings, inputs and outputs keep their names, and so does what Rattle makes (goals and their
parts). With --look it writes nothing and prints the table and the names that would fall together.
"""

import re
import subprocess
import sys

WORD = re.compile(r"[^\s(){}\[\],;.:«»\"|@`]+")
SIGNATURE = re.compile(r"^\s*(?:(?:abbrev|unfoldable|pub|data|record)\s+)*([^\s(){}\[\],;.:«»\"|@`]+)\s*:(?![:=])")
MADE = re.compile(r"^(returns|loop|invariant|decreases|overflow|ghost)-|-requires(-\d+)?$|^(index|range|divisor|measure)-")
# where the new name would meet another name, or the name of the function that it is a lemma of
OTHER = {
    "in-turn": "completed_clean",
    "label-count": "label_count_kept",
    "names-first": "names_first_lem",
    "side-bit": "side_bit_lem",
    "spaced-byte": "spaced_byte_lem",
    "under-label": "under_label_lem",
}


def tracked(ending):
    out = subprocess.run(["git", "ls-files", "-co", "--exclude-standard", "--", "crates"], capture_output=True, text=True, check=True).stdout
    return sorted(f for f in out.split("\n") if f.endswith(ending) and "/out/" not in f)


def read(path):
    with open(path, encoding="utf-8") as f:
        return f.read()


def declared():
    """The names that signatures and fields of .antt files declare, and ghost members and fields of .rt files; and these with the library's."""
    names, library = set(), set()
    for path in tracked(".antt"):
        for found in re.finditer(r"^use (?:Rattle\.std|lib|native|mathlib|borrow)\b[^{\n]*\{([^}]*)\}", read(path), re.M):
            library |= {n.strip() for n in found.group(1).split(",")}
        for line in read(path).splitlines():
            found = SIGNATURE.match(line.split("--")[0])
            if found and ": goal." not in line and not MADE.search(found.group(1)):
                names.add(found.group(1))
    for path in tracked(".rt"):
        names |= set(re.findall(r"^\s*ghost (\w+)\s*[:=]", read(path), re.M))
    return names - library, names | library


def snake(name):
    if not name[0].islower():
        return name
    return re.sub(r"(?<=[a-z0-9])([A-Z])(?=[a-z]|$|_|-)", lambda m: "_" + m.group(1).lower(), name)


def respelled(name, known):
    parts = name.split("-")
    if len(parts) == 1 or not all(parts):
        return snake(name)
    made = snake(parts[0])
    for before, part in zip(parts, parts[1:]):
        joins = before in known and part in known
        made += ("-" if joins else "_") + snake(part)
    return made


def clauses(text):
    """The spans of a source file that are antt: ghost items, and the braces of clauses."""
    spans = []
    for found in re.finditer(r"\bghost use [^;]*;|\b(?:requires|ensures|ghost)\b\*?[^{};]*\{", text):
        if found.group().endswith(";"):
            spans.append((found.start(), found.end()))
            continue
        depth, at = 1, found.end()
        while depth and at < len(text):
            depth += {"{": 1, "}": -1}.get(text[at], 0)
            at += 1
        spans.append((found.start(), at))
    return spans


def turn_words(text, table):
    def one(found):
        return table.get(found.group(), found.group())

    def line(l):
        code, dash, comment = l.partition("--")
        if dash and (not code or code[-1].isspace()):
            return WORD.sub(one, code) + dash + comment
        return WORD.sub(one, l)

    parts = re.split(r'("[^"\n]*")', text)
    return "".join(p if i % 2 else "\n".join(line(l) for l in p.split("\n")) for i, p in enumerate(parts))


def turn_source(text, table):
    out, last = [], 0
    for start, end in clauses(text):
        if start < last:
            continue
        out += [text[last:start], turn_words(text[start:end], table)]
        last = end
    out.append(text[last:])
    return "".join(out)


def main():
    look = "--look" in sys.argv[1:]
    own, known = declared()
    table = {n: OTHER.get(n) or respelled(n, known) for n in own}
    table = {a: b for a, b in table.items() if a != b}
    for path in tracked(".antt") + tracked(".rt"):
        text = read(path)
        new = (turn_words if path.endswith(".antt") else turn_source)(text, table)
        if look:
            words = set(WORD.findall(text))
            for a, b in sorted(table.items()):
                if a in words and b in words:
                    print(f"meet: {path}: {a} and {b}")
        elif new != text:
            with open(path, "w", encoding="utf-8") as f:
                f.write(new)
    if look:
        back = {}
        for a, b in table.items():
            back.setdefault(b, []).append(a)
        for b, names in sorted(back.items()):
            if len(names) > 1 or b in known:
                print(f"fall together: {', '.join(sorted(names))}: {b}" + (" (declared)" if b in known else ""))
        for a, b in sorted(table.items()):
            print(f"{a} {b}")


main()
