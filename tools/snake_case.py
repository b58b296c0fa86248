#!/usr/bin/env python3
"""Brings the repository's own definitions and lemmas to the library's spelling: words in snake case, types in camel case.

usage: python3 tools/snake_case.py      once, at the top, after port.py

It reads which names specs/ and proofs/ declare. `nibbleOf` becomes `nibble_of`, `slice-made` becomes `slice_made`; a dash stays
only between the names of two functions, as in `length-adding`. Names that the prover makes, and functions of src/, stay.
"""

import glob
import re

# A name of its own, where the plain one would fall together with another: a definition with a function of src/, a lemma with a definition.
OTHERWISE = {
    "sliceLines": "slice_lines_text",
    "lineEnd": "end_of_line",
    "sliceItem": "slice_item_at",
    "sliceLine": "slice_line_at",
    "entriesLine": "entries_line_at",
    "sessionsLine": "sessions_line_at",
    "keysFrom": "keys_not_below",
    "sliceText": "text_of_slice",
    "refusalText": "text_of_refusal",
    "call-of": "call_under",
    "value-of": "value_read",
    "not-served": "not_served_lem",
    "ue-max": "ue_at_max",
    "session-max": "session_at_max",
}
LIBRARY = {"length", "take", "drop", "set", "get_or", "insert", "map", "codes"}
WORD = re.compile(r"[\w?'«»][\w?'«»-]*")
DECLARED = re.compile(r"^\s*(?:pub |abbrev |unfoldable |record |data )*([\w?'][\w?'-]*)((?: [({][^:]*:[^:=]*[)}])*) :(?!=) (.*)$", re.M)


def snake(name):
    return re.sub(r"(?<=[a-z0-9])([A-Z])", lambda m: "_" + m.group(1).lower(), name)


def turned(name, functions):
    if name in OTHERWISE:
        return OTHERWISE[name]
    if name[0].isupper():
        return "".join(p[0].upper() + p[1:] for p in name.split("-"))
    parts = [snake(p) for p in name.split("-")]
    out = parts[0]
    for before, after in zip(parts, parts[1:]):
        both = before in functions and after in functions
        out += ("-" if both else "_") + after
    return out


def sources():
    return sorted(glob.glob("crates/*/specs/**/*.antt", recursive=True) + glob.glob("crates/*/proofs/**/*.antt", recursive=True))


def plan():
    own, functions, imported, made = {}, set(LIBRARY), set(), set()
    for p in sources():
        t = open(p, encoding="utf-8").read()
        for line in re.findall(r"^use (?:Rattle\.std|native|borrow|mathlib|Prim|lib)[.\w]*\.\{([^}]*)\}", t, re.M):
            imported |= {n.strip() for n in line.split(",")}
        for name, _, rest in DECLARED.findall(t):
            if re.search(r"\b(goal|need)\.", rest):
                made.add(name)
            else:
                own.setdefault(name, set()).add(p)
                if "/specs/" in p:
                    functions.add(snake(name))
    odd = [n for n in own if "-" in n or re.match(r"[a-z].*[A-Z]", n)]
    table = {n: turned(n, functions) for n in odd if n not in imported and n not in made}
    return {a: b for a, b in table.items() if a != b}, own


def code(text, table, comment):
    out = []
    for line in text.split("\n"):
        cut = line.find(comment) if comment else -1
        head, tail = (line, "") if cut < 0 else (line[:cut], line[cut:])
        parts = re.split(r'("(?:[^"\\]|\\.)*")', head)
        for i in range(0, len(parts), 2):
            parts[i] = WORD.sub(lambda m: table.get(m.group(), m.group()), parts[i])
        tail = re.sub(r"\b\w+\b", lambda m: table.get(m.group(), m.group()), tail)
        out.append("".join(parts) + tail)
    return "\n".join(out)


def main():
    table, own = plan()
    for old, new in sorted(table.items()):
        if new in own:
            print(f"falls together: {old} and {new}: {sorted(own[old])} {sorted(own[new])}")
    back = {}
    for old, new in table.items():
        back.setdefault(new, []).append(old)
    for new, olds in back.items():
        if len(olds) > 1:
            print(f"fall together: {olds}")
    files = [(p, "--") for p in sources()] + [(p, "//") for p in sorted(glob.glob("crates/*/src/**/*.rt", recursive=True))]
    files += [(p, "") for p in sorted(glob.glob("crates/*/must-fail/*.edit"))]
    for p, comment in files:
        old = open(p, encoding="utf-8").read()
        here = set(WORD.findall(old))
        for a, b in table.items():
            if a in here and b in here:
                print(f"{p}: both {a} and {b}")
        new = code(old, table, comment)
        if new != old:
            open(p, "w", encoding="utf-8").write(new)
    for p in sorted(glob.glob("docs/*.md")) + ["README.md"]:
        old = open(p, encoding="utf-8").read()
        new = re.sub(r"`[^`\n]*`", lambda m: re.sub(r"[\w?'-]+", lambda w: w.group() if "max" in w.group() else table.get(w.group(), w.group()), m.group()), old)
        if new != old:
            open(p, "w", encoding="utf-8").write(new)
    print(f"{len(table)} names")


if __name__ == "__main__":
    main()
