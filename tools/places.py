#!/usr/bin/env python3
"""Lists the places in crates/*/src that docs/DESIGN-PASS.md counts, point by point.

    tools/places.py            of the working tree
    tools/places.py COMMIT     of a commit

A line is a place to look at, not a verdict: the page says of each what became of it. Comments and ghost lines are not read."""
import re
import subprocess
import sys
from collections import defaultdict


def sources(commit):
    if commit is None:
        names = subprocess.run(["git", "ls-files"], capture_output=True, text=True, check=True).stdout.split()
        read = lambda name: open(name, encoding="utf-8").read()
    else:
        names = subprocess.run(["git", "ls-tree", "-r", "--name-only", commit], capture_output=True, text=True, check=True).stdout.split()
        read = lambda name: subprocess.run(["git", "show", f"{commit}:{name}"], capture_output=True, text=True, check=True).stdout
    return {name: read(name) for name in names if re.fullmatch(r"crates/\w+/src/\w+\.rt", name)}, names


# What each point's lines look like.
LINES = {
    "1 own enums": r"^(pub |pub\(crate\) )?enum ",
    "1 a flag beside a value, or for success": r"-> \(.*\bbool\b|fn .*&mut.*-> bool",
    "1 numbers for kinds and refusals": r"\b(kind|function|KIND): u8\b|fn (number|layer)\(self\) -> u|-> u16$(?=.*0xffff)|return 0xffff",
    "3 loops": r"^\s*(while|for) .*\{$",
    "4 written by hand": r"fn (from_\w+|to_bytes|is_below|command|head|read|bits|none|clear|with\w*|without\w*|health|initial_status|named|either\w*|lacking|event_bits)(<[^>]*>)?\(|^impl.* (TotalOrder|From<.*>|TryFrom<.*>|fmt::Display|Default|PartialEq|Ord) for",
    "6 arrays, and lengths beside": r"\[\w+; \d+\],|\b(count|lent|len|\w+_count|\w+_lent): usize|\[vacant; 4\]",
    "7 switches and function values": r"\bdyn |\bfn\(|impl Fn|F: Fn|match (name|first|carrier|command|call|words\.next\(\)|fields\.word\(\)\?|self\.take_phase\(\))\b",
}


def shape(body):
    """A function's text with every name that is no keyword, every number and every string made alike."""
    words = {"fn", "let", "mut", "match", "if", "else", "for", "in", "while", "return", "self", "pub", "crate", "Ok", "Err", "Some", "None", "u8", "u16", "u32", "usize", "bool"}
    text = re.sub(r'"[^"]*"', "S", body)
    text = re.sub(r"0x[0-9a-fA-F_]+|\b\d[\d_]*\b", "N", text)
    return re.sub(r"[A-Za-z_]\w*", lambda m: m.group(0) if m.group(0) in words else "w", re.sub(r"\s+", " ", text))


def functions(text):
    text = re.sub(r"^\s*(//.*|ghost .*|ensures.*|requires.*)$", "", text, flags=re.M)
    for m in re.finditer(r"^( *)(?:pub(?:\(crate\))? )?(?:extern \"C\" )?fn (\w+).*?^\1\}|^( *)(?:pub(?:\(crate\))? )?fn (\w+)[^\n]*;$", text, flags=re.M | re.S):
        if m.group(2):
            yield m.group(2), m.group(0)


def main():
    commit = sys.argv[1] if len(sys.argv) > 1 else None
    texts, names = sources(commit)
    for point, pattern in LINES.items():
        found = []
        for name, text in texts.items():
            for number, line in enumerate(text.split("\n"), 1):
                if re.search(pattern, line) and not re.match(r"\s*(//|ghost)", line):
                    found.append(f"{name}:{number}: {line.strip()}")
        print(f"== {point}: {len(found)}")
        print("\n".join(found))

    shapes = defaultdict(list)
    for name, text in texts.items():
        for function, body in functions(text):
            shapes[shape(body)].append(f"{name} {function}")
    twins = [places for places in shapes.values() if len(places) > 1]
    print(f"== 2 functions of one shape: {sum(map(len, twins))} in {len(twins)} groups")
    for places in twins:
        print("; ".join(places))

    clauses, wide = defaultdict(list), []
    for name, text in texts.items():
        current = ""
        for line in text.split("\n"):
            if m := re.search(r"\bfn (\w+)", line):
                current = m.group(1)
            if m := re.match(r"\s*(requires|ensures)( \w+)? \{ (.*) \}", line):
                clauses[(m.group(1), m.group(3))].append(f"{name.split('/')[1]} {current}")
        for m in re.finditer(r"\bfn (\w+)(?:<[^(]*>)?\(([^)]*)\)", text):
            parameters = [p for p in re.split(r",(?![^<]*>)", m.group(2)) if p.strip()]
            if len(parameters) >= 5:
                wide.append(f"{name} {m.group(1)}: {len(parameters)} parameters")
    repeated = {clause: places for clause, places in clauses.items() if len(places) >= 3}
    print(f"== 5 clauses in three contracts or more: {len(repeated)}")
    for (kind, clause), places in repeated.items():
        print(f"{kind} {{ {clause} }}: {'; '.join(places)}")
    print(f"== 5 functions with five parameters or more: {len(wide)}")
    print("\n".join(wide))

    for what, pattern in (("answer files", r"crates/\w+/proofs/.*/Answers\.antt"), ("invariant files", r"crates/\w+/proofs/.*/Invariants\.antt"), ("lemma files", r"crates/\w+/proofs/(?!Lib)\w+\.antt")):
        found = [name for name in names if re.fullmatch(pattern, name)]
        print(f"== 8 {what}: {len(found)}")


if __name__ == "__main__":
    main()
