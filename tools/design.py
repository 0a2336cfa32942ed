#!/usr/bin/env python3
"""Counts, in crates/*/src of a commit, the places that docs/DESIGN-PASS.md speaks of: `tools/design.py [COMMIT]`.

Goes by text, and finds what text shows: a place is a line of its output. What only reading shows stands in the page.
"""

import re
import subprocess
import sys
from collections import defaultdict

COMMIT = sys.argv[1] if len(sys.argv) > 1 else "HEAD"


def git(*args):
    return subprocess.run(["git", *args], check=True, capture_output=True, text=True).stdout


def sources():
    for name in git("ls-tree", "-r", "--name-only", COMMIT, "crates").split("\n"):
        if re.fullmatch(r"crates/\w+/src/.*\.rt", name):
            yield name, git("show", "%s:%s" % (COMMIT, name)).split("\n")


FILES = list(sources())


def show(title, places):
    print("%s: %d" % (title, len(places)))
    for place in places:
        print("    " + place)


def lines(pattern, keep=lambda name, line: True):
    return [
        "%s:%d %s" % (name, i + 1, line.strip())
        for name, text in FILES
        for i, line in enumerate(text)
        if re.search(pattern, line) and keep(name, line)
    ]


def items(pattern):
    """What a pattern names, with where it stands; group 1 is the name."""
    found = defaultdict(list)
    for name, text in FILES:
        for i, line in enumerate(text):
            m = re.match(pattern, line)
            if m:
                found[m.group(1)].append("%s:%d" % (name, i + 1))
    return found


def functions():
    """Each function's place, its parameters and the facts of its `requires`."""
    for name, text in FILES:
        whole = "\n".join(text)
        for m in re.finditer(r"^ *(?:pub(?:\(crate\))? )?(?:extern \"C\" )?fn (\w+)(?:<[^(]*>)?\(", whole, re.M):
            body = re.search(r"\n *\{\n", whole[m.end() :])
            head = whole[m.end() : m.end() + body.start()] if body else whole[m.end() :]
            # a one-line body, or a head that ends in ` {`
            brace = re.search(r"\) *(?:-> [^{;\n]*)?\{", whole[m.end() :])
            if brace and brace.end() < len(head):
                head = whole[m.end() : m.end() + brace.end()]
            yield "%s:%d %s" % (name, whole[: m.start()].count("\n") + 1, m.group(1)), head


def parameters(head):
    depth, end = 1, 0
    for end, c in enumerate(head):
        depth += (c == "(") - (c == ")")
        if depth == 0:
            break
    return re.findall(r"(\w+): ", head[:end])


def facts(head):
    for clause in re.findall(r"requires[ \w]*\{(.*?)\}$", head, re.M | re.S):
        for fact in clause.split(" × "):
            yield " ".join(fact.replace("(", " ").replace(")", " ").split())


print("1. A number for a refusal, or a flag, beside a value")
show("fields", lines(r"^ +(?:pub )?(?:refusal|fault): u8,|failed: bool,"))
show("functions that answer a refusal's number, or take one", lines(r"fn .*(?:refusal|fault)\w*\(.*-> u8|fn .*\((?:.*, )?(?:refusal|fault): u8"))
show("constants", lines(r"^pub const [A-Z_]+: u8 = [0-9]+;", lambda name, line: "/refusals/" in name))
show("parameters and results that are a flag for a kind", lines(r"fn .*\b(?:writing|over|current): bool"))

print("2. Twins")
for title, pattern in [
    ("functions of one name in two crates", r" *(?:pub(?:\(crate\))? )?fn (\w+)"),
    ("constants of one name in two crates", r"(?:pub )?const ([A-Z_]+):"),
    ("structs of one name in two crates", r"(?:pub )?struct (\w+)"),
]:
    twice = [
        "%s %s" % (what, " ".join(places))
        for what, places in sorted(items(pattern).items())
        if len({p.split("/")[1] for p in places}) > 1 and what not in ("main", "fmt", "from")
    ]
    show(title, twice)
shapes = defaultdict(list)
for name, text in FILES:
    for m in re.finditer(r"^(?:pub )?struct (\w+) \{(.*?)^\}", "\n".join(text), re.M | re.S):
        shapes[" ".join(re.sub(r"//.*", "", m.group(2)).replace("pub ", "").split())].append("%s %s" % (name, m.group(1)))
show("structs of the same fields", ["; ".join(v) for v in shapes.values() if len(v) > 1])

print("3. Loops")
show("while", lines(r"^ *while "))
show("an index written out for each item", lines(r"^ *(?:& )?\(?\w+(?:\.\w+)?\[(?:base \+ )?[0-9]\](?:,| as \w+,| = | ==)|^ *narrow\(|^ *either\(|^ *code\(first\[|^ *(?:cells|buf)\[(?:base \+ )?[0-9]\] =|^ *(?:cells\[base|bytes\[4 \* k)(?: \+ [0-9])?\],"))

print("4. Equality, conversion, printing by hand")
show("equality", lines(r"fn (?:same\w*|only_on)\("))
show("conversion", lines(r"fn (?:wid\w+|narrow\w*|low|absolute|number|either)\("))
show("digits", lines(r"fn (?:show_byte|show_digit|put_two|put_three|put_small|put_decimal|hex_digit)\b"))
show("printing of a word and a number", lines(r"fn (?:put_line|put_check|show_number|show_run|show_equal|show_refusal)\b"))

print("5. Facts in the contracts of three or more functions, and parameters that travel together")
count, pairs = defaultdict(list), defaultdict(list)
for where, head in functions():
    crate = where.split("/")[1]
    for fact in set(facts(head)):
        count[crate, fact].append(where)
    names = parameters(head)
    for a in range(len(names)):
        for b in range(a + 1, len(names)):
            pairs[crate, names[a], names[b]].append(where)
show("facts", ["%s: `%s` in %d" % (c, f, len(v)) for (c, f), v in sorted(count.items()) if len(v) > 2])
show("parameters", ["%s: (%s, %s) in %d" % (c, a, b, len(v)) for (c, a, b), v in sorted(pairs.items()) if len(v) > 2])

print("7. Switches")
show("a number that says which step or field", lines(r"^ *(?:\} else )?if (?:n|k) ==? [0-9]+ \{|^ *(?:\} else )?if k < [0-9]+ \{"))
