#!/usr/bin/env python3
"""Brings the repository's own definitions and lemmas to the spelling of today's Rattle.

    python3 tools/respell.py [--dry] [ROOT]

Run once, after the kit's port.py. A name of specs/ or proofs/ that is joined by dashes becomes snake case
(`event-of` to `event_of`); one that begins with a capital, a fact or a type, becomes camel case (`Has-stock` to
`HasStock`). Names that Rattle makes (goals, steps of the code) and names of the library keep their dashes.
It prints what it renames, and changes nothing where a new name falls together with another definition or with a name
that the library has.
"""
import collections
import os
import re
import sys

MADE = re.compile(r"(?:goal|need|given|Goals|Given|Needs)\.([^\s(){}]+)")


def files(root, ends):
    for folder, dirs, names in os.walk(os.path.join(root, "crates")):
        dirs[:] = sorted(d for d in dirs if d != "out")
        for name in sorted(names):
            if name.endswith(ends):
                yield os.path.join(folder, name)


def read(path):
    with open(path, encoding="utf-8") as f:
        return f.read()


def declared(text):
    """The names that a file of antt declares: definitions, types, fields and constructors."""
    found = set()
    inside = False
    for line in text.split("\n"):
        m = re.match(r"^ {2,12}(?:(?:abbrev|unfoldable|pub|ruleset)\s+)*([a-zA-Z][^\s:(){}]*)\s*:(?:\s|$)", line)
        if m and not inside:
            # a definition of a module in the file
            found.add(m.group(1))
        m = re.match(r"^(?:(?:abbrev|unfoldable|pub|mutual)\s+)*(?:data|record)\s+([^\s:(){}]+)", line)
        if m:
            found.add(m.group(1))
            inside = True
            continue
        m = re.match(r"^(?:(?:abbrev|unfoldable|pub|ruleset)\s+)*([^\s:(){}]+)\s*:(?:\s|$)", line)
        if m and not line.startswith(("use", "--")):
            found.add(m.group(1))
            inside = False
            continue
        if inside and re.match(r"^\s", line):
            m = re.match(r"^\s+(?:pub\s+)?([^\s:(){}]+(?:\s+[^\s:(){}]+)*)\s*:(?:\s|$)", line)
            if m and not line.strip().startswith("--"):
                found.update(w for w in m.group(1).split() if w != "pub")
        elif line.strip() and not line.startswith("--"):
            inside = False
    return found


def imported(text):
    """The names that a file takes from the library and the logic."""
    found = set()
    for m in re.finditer(r"\buse\s+([A-Za-z_.]+)\.\{([^}]*)\}", text):
        head = m.group(1).split(".")
        if head[0] != "Rattle" or head[1] in ("std", "core"):
            found.update(w.strip().split(" as ")[0].strip() for w in m.group(2).split(","))
    return found


def spelled(name):
    if name[0].isupper():
        return "".join(part[:1].upper() + part[1:] for part in name.split("-"))
    return name.replace("-", "_")


def main():
    args = [a for a in sys.argv[1:] if a != "--dry"]
    root = args[0] if args else "."
    own, made, library, rust = set(), set(), set(), collections.Counter()
    for path in files(root, ".antt"):
        text = read(path)
        names = declared(text)
        goals = set()
        if os.path.basename(path) in ("Answers.antt", "Invariants.antt", "Choices.antt", "Proof.antt"):
            goals = {m.group(1) for m in MADE.finditer(text)}
        made |= goals
        own |= names - goals
        library |= imported(text)
    for path in files(root, ".rt"):
        text = read(path)
        library |= imported(text)
        for word in re.findall(r"[A-Za-z_][A-Za-z_0-9]*", re.sub(r"//.*", "", text)):
            rust[word] += 1
    dashed = {n for n in own if re.fullmatch(r"[A-Za-z][^\s]*", n) and "-" in n and "◌" not in n}
    both = sorted(n for n in dashed if n in library or n in made)
    turn = {n: spelled(n) for n in dashed if n not in both}
    for n in both:
        print("kept, since the library or Rattle has it: " + n)
    news = collections.defaultdict(list)
    for old, new in turn.items():
        news[new].append(old)
    together = False
    for new, olds in sorted(news.items()):
        if len(olds) > 1 or new in own or new in library:
            print("falls together: %s, as %s" % (" ".join(sorted(olds)), new))
            together = True
        if new in rust:
            print("also a word of src: %s (%d)" % (new, rust[new]))
    if together:
        sys.exit(1)
    if not turn:
        print("0 names, 0 files")
        return
    token = re.compile(r"(?<![^\s(){}\[\].,;:«»λ\"`])(" + "|".join(
        re.escape(n) for n in sorted(turn, key=len, reverse=True)) + r")(?![^\s(){}\[\].,;:«»\"`])")
    count = 0
    pages = [os.path.join(root, "README.md")] + [
        os.path.join(root, "docs", n) for n in sorted(os.listdir(os.path.join(root, "docs"))) if n.endswith(".md")]
    for path in list(files(root, (".antt", ".rt"))) + pages:
        text = read(path)
        if path.endswith(".rt"):
            # clauses and ghost items; Rust has no name with a dash, and a difference is laid out with spaces
            new = re.sub(r'("(?:[^"\\\n]|\\.)*")|//[^\n]*|' + token.pattern,
                         lambda m: turn[m.group(2)] if m.group(2) else m.group(0), text)
        elif path.endswith(".md"):
            new = re.sub(r"`[^`\n]*`", lambda q: token.sub(lambda m: turn[m.group(1)], q.group(0)), text)
        else:
            new = token.sub(lambda m: turn[m.group(1)], text)
        if new != text:
            count += 1
            if "--dry" not in sys.argv:
                with open(path, "w", encoding="utf-8") as f:
                    f.write(new)
    for old in sorted(turn):
        print("%s -> %s" % (old, turn[old]))
    print("%d names, %d files" % (len(turn), count))


main()
