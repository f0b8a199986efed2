#!/usr/bin/env python3
"""Spells this repository's own definitions and lemmas as today's Rattle spells its own: run once, at the top, after port.py.

Words are in snake case, types and facts in camel case. A dash stays only where it joins a function of lists or bits to another name in a
lemma's name, as in length-responders. Functions of src/, strings, comments, inputs and outputs keep their names. It stops, and writes nothing,
where two names would fall together. Labels of clauses are written in proofs as src/ has them.
"""

import collections
import glob
import os
import re

NAME = r"[A-Za-z_][\w'₀-₉]*"
DASHED = re.compile(r"(?<![\w'-])" + NAME + r"(?:-[\w'₀-₉]+)+(?![\w'])")
# comments and strings, of antt and of Rattle
SKIPPED = {
    ".antt": re.compile(r"--[^\n]*|\"(?:[^\"\\]|\\.)*\""),
    ".rt": re.compile(r"//[^\n]*|b?\"(?:[^\"\\]|\\.)*\""),
}
USE = re.compile(r"^\s*(?:ghost )?(?:pub )?use\s+([^{\s;]+)\.\{([^}]*)\}", re.M)
OUTER = ("length", "take", "drop", "map", "bit")
# by hand: a lemma that would have a library's name, names of a library's function in the old spelling, and definitions that would have a field's name
BY_HAND = {
    "bit-or": "bit-bit_or",
    "length-putMid": "length-put_mid",
    "map-putMid": "map-put_mid",
    "responder-count": "count_of_responders",
    "rows-needed": "needed_rows",
}


def texts():
    for pattern in ("crates/*/specs/**/*.antt", "crates/*/proofs/**/*.antt", "crates/*/src/**/*.rt"):
        yield from sorted(glob.glob(pattern, recursive=True))


def bare(path, text):
    """The text without comments and strings."""
    return SKIPPED[os.path.splitext(path)[1]].sub(lambda m: " " * len(m[0]), text)


def is_generated(path):
    """Whether the file answers goals of a function, whose names Rattle makes."""
    return os.path.basename(path) in ("Answers.antt", "Invariants.antt", "Proof.antt")


def camel(name):
    return "".join(part[:1].upper() + part[1:] for part in name.split("-"))


def main():
    crates = set(os.listdir("crates"))
    read = {path: open(path, encoding="utf-8").read() for path in texts()}
    libraries, own, labels, lemmas, functions = set(), set(), set(), set(), set(OUTER)
    for path, text in read.items():
        for place, names in USE.findall(text):
            parts = place.split(".")
            if not (parts[0] == "Rattle" and parts[1] in crates):
                libraries.update(n.strip().split(" as ")[0] for n in names.split(","))
        if path.endswith(".rt"):
            labels.update(re.findall(r"(?:requires|ensures)\*? (\w+) \{|ghost (\w+)[:=]", text))
    labels = {a or b for a, b in labels}
    for path, text in read.items():
        body = bare(path, text)
        if not is_generated(path):
            own.update(DASHED.findall(body))
        else:
            own.update(n for n in re.findall(r"(?m)^(?:abbrev )?(?:pub )?(\S+) :(?! (?:goal|given)\.)", body) if "-" in n)
        if path.endswith(".antt"):
            for how, name in re.findall(r"(?m)^ *(abbrev pub|unfoldable pub|abbrev|unfoldable|pub|) ?(" + NAME + r"(?:-[\w'₀-₉]+)*) :", body):
                (functions if how.startswith(("abbrev", "unfoldable")) else lemmas).add(name)
    own = {n for n in own if DASHED.fullmatch(n)} - libraries
    plain = lambda n: n.replace("-", "_")
    new = {name: BY_HAND[name] for name in own if name in BY_HAND}
    for name in own - set(BY_HAND):
        outer, rest = name.split("-", 1)
        if name[0].isupper():
            new[name] = camel(name)
        elif outer in OUTER and name in lemmas - functions and (rest in functions or plain(rest) in functions):
            new[name] = outer + "-" + plain(rest)
        else:
            new[name] = plain(name)
    for label in labels:
        if "_" in label:
            new.setdefault(label.replace("_", "-"), label)

    # names that fall together, in a file; a definition may have the name of a function, a field of another record that of a field, a type that of its module
    code = "\n".join(bare(path, text) for path, text in read.items() if path.endswith(".rt"))
    apart = set(re.findall(r"\bfn (\w+)|\bmod (\w+)|(\w+): ", code))
    apart = {n for found in apart for n in found} | {os.path.basename(path).split(".")[0] for path in read}
    bad = []
    for path, text in read.items():
        body = bare(path, text)
        spelled = collections.defaultdict(set)
        for word in re.findall(r"(?<![\w'-])" + NAME + r"(?:-[\w'₀-₉]+)*(?![\w'])", body):
            spelled[new.get(word, word)].add(word)
        for to, words in spelled.items():
            if len(words - apart) > 1 or (len(words) > 1 and to in libraries):
                bad.append(f"{path}: {', '.join(sorted(words))} -> {to}")
    if bad:
        print("\n".join(bad))
        print(f"respell: {len(bad)} places where names may fall together; nothing was written")
        return 1
    changed = 0
    for path, text in read.items():
        skip = SKIPPED[os.path.splitext(path)[1]]
        out, at = [], 0
        for m in list(skip.finditer(text)) + [None]:
            end = m.start() if m else len(text)
            out.append(DASHED.sub(lambda w: new.get(w[0], w[0]), text[at:end]))
            if m:
                out.append(m[0])
                at = m.end()
        if (it := "".join(out)) != text:
            with open(path, "w", encoding="utf-8") as f:
                f.write(it)
            changed += 1
    print(f"respell: {len(new)} names, {changed} files")
    return 0


if __name__ == "__main__":
    raise SystemExit(main())
