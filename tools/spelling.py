#!/usr/bin/env python3
"""Gives the definitions and lemmas below crates/ the spelling of today's Rattle, as port.py leaves them: words in snake case.

usage: python3 tools/spelling.py [--check]       at the top of the repository, once, after port.py

Types, modules and facts keep their capitals, and what the source names keeps its spelling. --check only lists the names that would
fall together with another of a file that has both.
"""
import collections
import os
import re
import sys

# Where the rule's spelling would be a parameter's too, or hard to read.
OTHER = {
    "pitchBits": "pitch_width",
    "powerUp5220C": "power_up_5220c",
    "powerUp5220CWith": "power_up_5220c_with",
    "branched5220C": "branched_5220c",
}

# Lemmas that port.py spelled as their definition will be, and the folders where they stand.
LEMMAS = {
    "is_stop": "account/proofs/Steps",
    "at_rest": "chip/proofs/",
    "by_answer": "claims/proofs/Moves",
    "walk_refused": "rom/proofs/ rates/proofs/",
}

DECLARED = re.compile(r"^\s*(?:(?:pub|abbrev|unfoldable)\s+)*([^\s:(){}.,;«»]+)\s*(?:[({][^:]*:[^)}]*[)}]\s*)*:\s")
# Goals of Rattle's own, which a proof file answers under their names.
ANSWERED = re.compile(r"(?:invariant|decreases)-|returns-|.*-requires(?:-\d+)?$|loop-again")
NAME = re.compile(r"[^\W_0-9][^\s(){}\[\].,;:\"«»λ`]*")
GHOST = re.compile(r"ghost use [^;]*;|\b(?:requires|ensures)\b\*?(?: \w+)? \{")


def files(root):
    for folder, dirs, names in os.walk(os.path.join(root, "crates")):
        dirs[:] = sorted(d for d in dirs if d not in ("out", "must-fail"))
        for name in sorted(names):
            if name.endswith((".rt", ".antt")):
                yield os.path.join(folder, name)


def plain_snake(name):
    return re.sub(r"(?<=[a-z0-9])(?=[A-Z])", "_", name).replace("-", "_").lower()


def spelling(names):
    """The new spelling of each name. A lemma that would have its definition's name gets `_lem`."""
    defined = {plain_snake(name) for name in names if "-" not in name}
    new = {}
    for name in names:
        if name[0].isupper():
            new[name] = name.replace("-", "_")
        else:
            apart = plain_snake(name)
            new[name] = apart + "_lem" if "-" in name and apart in defined else apart
    return new | {name: OTHER[name] for name in names if name in OTHER}


def declared(texts):
    """The names that the repository's own files declare and that are to change."""
    found = set()
    for path, text in texts.items():
        if not path.endswith(".antt"):
            continue
        for line in text.split("\n"):
            match = DECLARED.match(line)
            if match and not ANSWERED.match(match.group(1)):
                name = match.group(1)
                if name[0].islower() and re.search("[A-Z-]", name) or re.fullmatch(r"[A-Z]+(?:-[A-Z]+)+", name):
                    found.add(name)
    return found


def ghost_spans(text):
    """Where the ghost text of a source file is: its imports, and what stands in a clause's braces."""
    for match in GHOST.finditer(text):
        end = match.end()
        if not match.group().startswith("ghost"):
            depth = 1
            while depth:
                depth += {"{": 1, "}": -1}.get(text[end], 0)
                end += 1
        yield match.start(), end


def turned(text, names):
    return NAME.sub(lambda m: names.get(m.group(), m.group()), text)


def turned_file(path, text, names):
    for lemma, places in LEMMAS.items():
        if any("/crates/" + place in path for place in places.split()):
            names = names | {lemma: lemma + "_lem"}
    if path.endswith(".antt"):
        return turned(text, names)
    out, at = [], 0
    for start, end in ghost_spans(text):
        out += [text[at:start], turned(text[start:end], names)]
        at = end
    return "".join(out + [text[at:]])


def together(path, text, names):
    """The names of a file that would be one afterwards."""
    if path.endswith(".rt"):
        text = " ".join(text[a:b] for a, b in ghost_spans(text)) + " ".join(re.findall(r"\b\w+(?=: )", text))
    words = set(NAME.findall(text))
    ways = collections.defaultdict(set)
    for word in words:
        ways[names.get(word, word)].add(word)
    return {new: old for new, old in ways.items() if len(old) > 1}


def main(argv):
    texts = {}
    for path in files("."):
        with open(path, encoding="utf-8") as f:
            texts[path] = f.read()
    names = spelling(declared(texts))
    if argv == ["--check"]:
        for path, text in texts.items():
            for new, old in sorted(together(path, text, names).items()):
                print(f"{path}: {new}: {' '.join(sorted(old))}")
        return 0
    for path, text in texts.items():
        new = turned_file(path, text, names)
        if new != text:
            with open(path, "w", encoding="utf-8") as f:
                f.write(new)
    return 0


if __name__ == "__main__":
    raise SystemExit(main(sys.argv[1:]))
