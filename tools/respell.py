#!/usr/bin/env python3
"""Respells this repository's own definitions and lemmas: words in snake case, and ' for the prime sign.

usage: tools/respell.py            rewrites crates/*/specs and crates/*/proofs, and the ghost items and clauses of crates/*/src
       tools/respell.py --list     prints the old and the new names, and what falls together, and writes nothing

A name is the repository's own where a file of specs/ or proofs/ declares it. It is respelled wherever it stands, in comments too
where it has a capital letter inside. Functions of src/, types, modules and the names that the check makes (goals, steps, fields of
structs) keep their spelling.
"""

import os
import re
import sys

ROOT = os.path.join(os.path.dirname(os.path.realpath(__file__)), "..", "crates")
NAME = r"[A-Za-z_](?:[A-Za-z0-9_'′]|-(?=[A-Za-z0-9]))*"
TOKEN = re.compile(NAME)
# names that the toolchain makes for a function's proof, or that its library has
MADE = re.compile(r"^(returns|loop|in|if|else|then|args|overflow|index|match|invariant|ensures|measure|InvT|Inv|from)-")


# names that would fall together with another, or with a function of src/, get a name of their own
BY_HAND = {
    "fieldReads": "field_readable", "classReads": "class_readable", "slotReads": "slot_readable", "instructionReads": "instruction_readable",
    "cameFrom": "sender_of", "effectAt": "effect_made_at", "joinAll": "joined_kinds", "shapeKind": "kind_of_shape", "take-one": "take_one_sound",
    "least-of": "least_of_is_least", "instruction-at": "instruction_at_decides", "line-at": "line_at_opcode", "opcode-at": "opcode_at_number",
    "is-ref": "is_ref_fits", "row-after": "row_after_sound", "slots-after": "slots_after_sound", "stack-bytes": "stack_bytes_are",
    "is-int": "is_int_kind", "on-top": "on_top_some", "comes-on": "comes_on_sound", "is_state": "is_a_state",
    "same-kinds": "same_kinds_sound", "same_row": "same_row_sound", "is_seen": "is_seen_sound", "made_as": "made_as_sound",
    "same_bytes": "same_bytes_sound", "same_kind": "same_kind_sound", "same_number": "same_number_sound", "fault-is": "fault_is_sound",
    "same-refusal": "same_refusal_sound",
    # local names
    "suitsOf": "suits_of", "storableTest": "storable_test", "onwardOf": "onward_of", "headedBy": "headed_by", "contentsOf": "contents_of",
}
# a name of these that is in snake case already is respelled in these crates alone
ONLY = {n: ("cases", "analysis_cases") for n in ("same_row", "is_seen", "made_as", "same_bytes", "same_kind", "same_number")} | {"is_state": ("flow_theory", "types_theory")}


def files():
    for folder, dirs, names in os.walk(ROOT):
        dirs[:] = sorted(d for d in dirs if d not in ("out", "data", "must-fail"))
        for name in sorted(names):
            if name.endswith((".antt", ".rt")):
                yield os.path.join(folder, name)


def snake(name):
    if name[0].isupper():
        return name.replace("′", "'")
    name = name.replace("-", "_").replace("′", "'")
    return re.sub(r"(?<=[a-z0-9])([A-Z]+)", lambda m: "_" + m[1].lower(), name)


def declared(path, text):
    """The names that a file declares: its top level, the bodies of its modules and where blocks, record fields, constructors."""
    lemma_file = "/proofs/" not in path or os.path.basename(path) not in ("Answers.antt", "Invariants.antt", "Proof.antt")
    for line in text.split("\n"):
        line = line.split("-- ")[0]
        m = re.match(rf"\s*(?:abbrev )?(?:pub )?(?:record |data )?({NAME})(?: |$)", line)
        if not m or not re.search(r"(?<![:=]):(?!=)", line):
            continue
        head = line.split(":")[0]
        if "=" in head or "(" in head.split(m[1])[0]:
            continue
        name = m[1]
        if name in ("use", "module", "where", "let", "in", "mod"):
            continue
        if not lemma_file and ("goal." in line or MADE.match(name)):
            continue
        yield name


def fields(text):
    """The names of the fields of a file's records."""
    inside = False
    for line in text.split("\n"):
        if re.match(r"(?:pub )?record ", line):
            inside = True
        elif inside and (m := re.match(rf"  (?:pub )?({NAME}) :", line)):
            yield m[1]
        elif line.strip() and not line.startswith((" ", "--")):
            inside = False
    # records written out in a type
    for m in re.finditer(r"record \{([^{}]*)\}", text):
        yield from re.findall(rf"(?:^|;)\s*({NAME}) :", m[1])


def main():
    texts = {p: open(p, encoding="utf-8").read() for p in files()}
    own = {}
    for p, t in texts.items():
        if p.endswith(".antt"):
            for n in declared(p, t):
                own.setdefault(n, set()).add(p)
    own_fields = {n for p, t in texts.items() if p.endswith(".antt") for n in fields(t)}
    for n in own_fields:
        own.setdefault(n, set())
    new = {n: snake(n) for n in own if snake(n) != n} | {n: m for n, m in BY_HAND.items()}
    used = {}
    for p, t in texts.items():
        for n in set(TOKEN.findall(re.sub(r"--[^\n]*", "", t))):
            used.setdefault(n, set()).add(p)
    # names that fall together: the new name stands already in a file that has the old one
    clash = {n: m for n, m in new.items() if used.get(m, set()) & used.get(n, set())}
    twice = {}
    for n, m in new.items():
        twice.setdefault(m, []).append(n)
    twice = {m: ns for m, ns in twice.items() if len(ns) > 1}
    if "--list" in sys.argv:
        for n, m in sorted(new.items()):
            print(n, m)
        print("fall together:", clash, twice)
        return
    for p, t in texts.items():
        rt = p.endswith(".rt")
        crate = os.path.relpath(p, ROOT).split(os.sep)[0]
        by_check = os.path.basename(p) in ("Answers.antt", "Invariants.antt", "Proof.antt")

        def respelled(m):
            n, before = m[0], m.string[: m.start()]
            if n not in new or crate not in ONLY.get(n, (crate,)):
                return n
            # behind a dot stands a field: one of the repository's own records, or one that the check makes
            if before.endswith(".") and not re.search(r"[A-Z]\w*\.$", before) and n not in own_fields:
                return n
            if by_check and before.endswith(".") and n in own_fields and "-" in n:
                print(f"look: {os.path.relpath(p, ROOT)}: .{n}")
            return new[n]

        def line(l):
            mark = "//" if rt else "--"
            i = l.find(mark)
            code, comment = (l, "") if i < 0 else (l[:i], l[i:])
            if rt:
                parts = re.split(r'("(?:[^"\\]|\\.)*")', code)
            else:
                parts = [code]
            code = "".join(s if s.startswith('"') and rt else TOKEN.sub(respelled, s) for s in parts)
            comment = TOKEN.sub(lambda m: new.get(m[0], m[0]) if re.search(r"[a-z][A-Z]", m[0]) else m[0], comment)
            return code + comment

        u = "\n".join(line(l) for l in t.split("\n"))
        if u != t:
            open(p, "w", encoding="utf-8").write(u)


if __name__ == "__main__":
    main()
