#!/usr/bin/env python3
"""Brings this repository's own antt names to the spelling of today's Rattle, after the kit's port.py: words in snake
case (amplitudeOf becomes amplitude_of, sound-says becomes sound_says). Run once, at the top, as

    python3 tools/spell.py crates          the .antt and .rt files below crates/
    python3 tools/spell.py pages FILE..    the names between backticks of those pages

Names of Rust, names that Rattle makes of the code's text (returns-2, loop-holds, read-spec), types, modules and the
library's names keep theirs. It says which names fell together in a file, and changes nothing then.
"""
import collections
import glob
import json
import os
import re
import sys

TOKEN = re.compile(r"[^\s(){}\[\].;,|@λ→×∷⌜⌝«»\"`]+")
CAMEL = re.compile(r"^[a-z][a-z0-9]*[A-Z]")
MADE = re.compile(r"(-spec|-requires(-\d+)?)$|^(loop\d*|invariant|decreases|returns|same-length|overflow|bounds|slice|Need|add|sub|mul|cast)-")
MAP = os.path.join(os.path.dirname(os.path.abspath(__file__)), "spelled.json")
# Names that would meet another in some file.
OTHER = {
    "atOnce": "all_at_once",
    "atRest": "resting",
    "notMade": "none_made",
    "oneMore": "one_added",
    "lossLatch": "loss_latch_of",
    "overLatch": "over_latch_of",
    "lossRun": "loss_count",
    "loss-run": "loss_run_lem",
    "bit-or": "bit_or_lem",
    "up-to": "up_to_lem",
    "ownSame": "own_alike",
    "noBytes": "empty_input",
    "overRun": "over_count",
}


def snake(name):
    return re.sub(r"([a-z0-9])([A-Z])", lambda m: m[1] + "_" + m[2].lower(), name).replace("-", "_")


def code(line):
    """The part of a line of antt before its comment."""
    m = re.search(r"(^|\s)--(\s|$)", line)
    return line if not m else line[: m.start()]


def antt():
    return sorted(f for f in glob.glob("crates/*/*/**/*.antt", recursive=True) if "/out/" not in f)


def declared(path):
    """The names that a file declares: its definitions and lemmas, fields and constructors."""
    found = set()
    with open(path) as f:
        for line in f:
            line = code(line)
            m = re.match(r"^(?:(?:pub|abbrev|unfoldable|ruleset)\s+)*([^\s:=(]+(?:\s+[^\s:=(]+)*)\s+(?::|=)\s", line)
            if m:
                found.update(m[1].split()[:1] if "=" in m[0] else m[1].split())
            m = re.match(r"^\s+(?:pub\s+)?([^\s:(]+)\s+:\s", line)
            if m:
                found.add(m[1])
            found.update(re.findall(r"\blet ([^\s:(=]+) [:=]", line))
            m = re.match(r"^\s*(?:pub\s+)?ruleset\s+([^\s=]+)", line)
            if m:
                found.add(m[1])
    return found


def names():
    """Old name to new, for all files."""
    old = set()
    for path in antt():
        own = declared(path)
        deep = "/proofs/" in path and path.count("/") > 3
        for n in own:
            if "-" in n and re.search("[a-z]", n) and not (deep and MADE.search(n)) and not n.endswith("-spec"):
                old.add(n)
        with open(path) as f:
            for line in f:
                old.update(t for t in TOKEN.findall(code(line)) if CAMEL.match(t))
    to = {n: OTHER.get(n, snake(n)) for n in sorted(old) if CAMEL.match(n)}
    # A lemma or a field that would have a definition's name gets _lem.
    taken = set(to.values())
    for n in sorted(old - set(to)):
        to[n] = OTHER.get(n, snake(n) + ("_lem" if snake(n) in taken else ""))
    return to


def turned(text, to, part):
    return TOKEN.sub(lambda m: to.get(m[0], m[0]) if part(m[0]) else m[0], text)


def quoted(text, to):
    """Words between backticks in prose."""
    return re.sub(r"`[^`\n]*`", lambda m: turned(m[0], to, lambda t: True), text)


def in_antt(text, to):
    out = []
    for line in text.splitlines(keepends=True):
        head = code(line)
        tail = line[len(head):]
        tail = turned(quoted(tail, to), to, lambda t: CAMEL.match(t))
        out.append(turned(head, to, lambda t: True) + tail)
    return "".join(out)


def in_rust(text, to):
    out, clause = [], 0
    for line in text.splitlines(keepends=True):
        if line.startswith("ghost use") or clause or re.match(r"\s*(requires|ensures|ghost)\b", line):
            out.append(turned(line, to, lambda t: True))
            clause = max(0, clause + line.count("{") - line.count("}")) if not line.startswith("ghost use") else 0
        else:
            parts = re.split(r'("(?:[^"\\]|\\.)*")', line)
            out.append("".join(p if p.startswith('"') else turned(p, to, lambda t: CAMEL.match(t)) for p in parts))
    return "".join(out)


def main(argv):
    if argv[:1] == ["crates"]:
        to = names()
        bad = 0
        for path in antt():
            with open(path) as f:
                seen = {t for line in f for t in TOKEN.findall(re.sub(r"^(use|ghost use) [^{]*", "", code(line)))}
            back = collections.defaultdict(set)
            for t in seen:
                back[to.get(t, t)].add(t)
            for new, olds in back.items():
                if len(olds) > 1:
                    print(f"{path}: {' and '.join(sorted(olds))} would both be {new}")
                    bad += 1
        if bad:
            return 1
        for path in antt() + sorted(glob.glob("crates/*/src/**/*.rt", recursive=True)):
            with open(path) as f:
                old = f.read()
            new = in_antt(old, to) if path.endswith(".antt") else in_rust(old, to)
            if new != old:
                with open(path, "w") as f:
                    f.write(new)
        with open(MAP, "w") as f:
            json.dump(to, f, indent=0, ensure_ascii=False, sort_keys=True)
        print(f"{len(to)} names")
        return 0
    if argv[:1] == ["pages"]:
        with open(MAP) as f:
            to = json.load(f)
        for path in argv[1:]:
            with open(path) as f:
                old = f.read()
            new = quoted(old, to)
            if new != old:
                with open(path, "w") as f:
                    f.write(new)
        return 0
    print(__doc__)
    return 2


if __name__ == "__main__":
    sys.exit(main(sys.argv[1:]))
