#!/usr/bin/env python3
"""Brings this repository's own names to the spelling of today's Rattle. It was run once, around the kit's port.py:

    python3 tools/port_names.py crate      before it: the crate `core` becomes `base`, since the kit has a library named core
    python3 /opt/rattle/port/port.py
    python3 tools/port_names.py names      after it: definitions and lemmas in snake case, types in camel case

`names` reads which names the files of specs/ and proofs/ declare (those of a function's own proof, Proof.antt, aside), and puts the new
spelling for each of them in specs/, proofs/, the contracts of src/, the must-fail edits and the documents. A dash stays where it joins two
names of functions (`get-put`); a plain word is joined by an underscore. Nothing else changes: no function of src/, no string, no input.
`names --say` prints the table and what would fall together, and writes nothing.
"""

import collections
import os
import re
import subprocess
import sys

# What ends an identifier of antt, but for white space.
BREAKS = "(){}[\\],;.⌜⌝·"
TOKEN = re.compile("[^\\s" + BREAKS + "\\]]+")
DECLARED = re.compile(
    r"^(\s*)((?:(?:pub|abbrev|unfoldable)\s+)*)([^\s(){}\[\];,.:λ→|]+)\s*(?:\([^)]*\)\s*|\{[^}]*\}\s*)*:\s+(.*)$"
)
# Functions on lists and numbers of the library, which a dash may join to a name.
LIBRARY = set("length take drop append map replicate sets set get get_or slice min nat_lt nat_le bit_and bit_or".split())
# Words that are too short, or too common, to be read as a function's name within a lemma's.
PLAIN = set("at on in by of is to no or all one two three next after both given part own first last".split())
DOCUMENTS = ["README.md", "docs/DESIGN.md", "docs/DECISIONS.md", "docs/DIFFERENCES.md", "docs/PERFORMANCE.md", "docs/changes", "rust/README.md", "crates/capi/README.md"]


def files(root, ends):
    for folder, dirs, names in os.walk(root):
        dirs[:] = sorted(d for d in dirs if d != "out")
        for name in sorted(names):
            if name.endswith(ends):
                yield os.path.join(folder, name)


def read(path):
    with open(path, encoding="utf-8") as f:
        return f.read()


def write(path, text):
    with open(path, "w", encoding="utf-8") as f:
        f.write(text)


def crate():
    subprocess.run(["git", "mv", "crates/core", "crates/base"], check=True)
    for path in files("crates", (".rt", ".antt", ".edit", ".proof")):
        old = read(path)
        new = re.sub(r"Rattle·core(?=[·.])", "Rattle·base", old)
        new = re.sub(r"\bcore::", "base::", new)
        if new != old:
            write(path, new)
    write("crates.txt", re.sub(r"\bcore\b", "base", read("crates.txt")))


def declared():
    """Each own name, with the files and the types that it is declared with, and the names that specs/ has."""
    names, stated = collections.defaultdict(list), set()
    for path in files("crates", ".antt"):
        if path.endswith("/Proof.antt"):
            continue
        for line in read(path).split("\n"):
            if line.lstrip().startswith("--"):
                continue
            m = DECLARED.match(line)
            if not m:
                continue
            names[m.group(3)].append((path, m.group(4)))
            if "/specs/" in path and re.match("[a-z]", m.group(3)):
                stated.add(m.group(3))
    return names, stated


def snake(name):
    return re.sub(r"(?<=[a-z0-9])([A-Z])", lambda m: "_" + m.group(1).lower(), name)


def lemma(name, known):
    """The name of a lemma: its parts that are names of functions are joined by dashes, other words by underscores."""
    words = name.split("-")
    parts, i = [], 0
    while i < len(words):
        for n in range(len(words) - i, 0, -1):
            joined = "_".join(words[i : i + n])
            if joined in known:
                parts.append((joined, True))
                break
        else:
            n = 1
            parts.append((words[i], False))
        i += n
    out = parts[0][0]
    for (_, before), (part, function) in zip(parts, parts[1:]):
        out += ("-" if before and function else "_") + part
    return out


def table():
    names, stated = declared()
    known = ({snake(n) for n in stated if "-" not in n} | LIBRARY) - PLAIN
    new = {}
    for name, places in names.items():
        if not re.match("[a-zμ]", name) or re.fullmatch(r"[a-z0-9_'₀-₉]+", name):
            continue
        if "-" in name:
            to = lemma("-".join(snake(w) for w in name.split("-")), known)
        elif all(re.search(r"(^|→ )Type 0$", t) for _, t in places):
            to = name[0].upper() + name[1:]
        else:
            to = snake(name)
        if to != name:
            new[name] = to
    # a lemma that would have the name of a definition
    defined = {to for old, to in new.items() if "-" not in old}
    for old in [n for n in new if "-" in n] + [n for n in names if n not in new and n in defined]:
        to = new.get(old, old)
        if to in defined or ("-" in old and to in names):
            new[old] = to + "_lem"
    return new, names


def outside(text):
    """The names that a file takes from a library that is not this repository's."""
    out = set()
    for m in re.finditer(r"\buse ([\w.◌'-]+)\.\{([^}]*)\}", text):
        if re.match(r"Rattle\.(base|bflan|edit|console|capi|decode_text|replay_sections|round_trip|show_tracks|edit_section)\.", m.group(1)):
            continue
        for item in m.group(2).split(","):
            out.add(item.strip().split(" as ")[0].strip())
    return out


def turned(text, new, skip=(), fields=None):
    """Every identifier of a text by the table; behind a dot, where `fields` is given, only those."""

    def one(m):
        t = m.group(0)
        if t in skip or t not in new:
            return t
        behind = m.start() and text[m.start() - 1] == "."
        if behind and (fields is not None and t not in fields or re.fullmatch("[a-z0-9_]+", t)):
            return t
        return new[t]

    return TOKEN.sub(one, text)


def in_ticks(text, new):
    """What stands between backticks. A path of a file is one word, and no name."""
    return re.sub(r"`[^`\n]+`", lambda m: "`" + turned(m.group(0)[1:-1], new) + "`", text)


def antt(text, new, skip, fields=None):
    out = []
    for line in text.split("\n"):
        if line.lstrip().startswith("--"):
            out.append(in_ticks(line, new))
        else:
            out.append(turned(line, new, skip, fields))
    return "\n".join(out)


def source(text, new):
    """The contracts and the ghost items of a source file; in its comments, what stands between backticks."""
    camel = {k: v for k, v in new.items() if re.search("[a-z][A-Z]", k)}
    out = []
    for line in text.split("\n"):
        if line.lstrip().startswith("//"):
            out.append(in_ticks(line, new))
        else:
            out.append(turned(line, camel))
    return "\n".join(out)


def names(say):
    new, where = table()
    # what is named so already, where the new name comes in
    for path in files("crates", (".antt", ".rt")):
        text = read(path)
        words = set(TOKEN.findall(text))
        for old in sorted(words & set(new)):
            if new[old] in words and say:
                print(f"together: {path}: {old} -> {new[old]}")
    backs = collections.defaultdict(list)
    for old, to in new.items():
        backs[to].append(old)
    for to, olds in sorted(backs.items()):
        if len(olds) > 1 or to in where:
            print(f"twice: {to}: {olds} {[p for o in olds for p, _ in where[o]][:4]} {[p for p, _ in where.get(to, [])][:3]}")
    if say:
        for old, to in sorted(new.items()):
            print(f"{old} -> {to}")
        return
    fields = {n for n in new if re.search("[a-z][A-Z]", n)}
    for path in files("crates", (".antt", ".rt", ".edit", ".proof")):
        old = read(path)
        if path.endswith(".rt"):
            to = source(old, new)
        elif path.endswith("/Proof.antt") or path.endswith(".proof"):
            to = antt(old, new, outside(old) | own(old), fields)
        elif path.endswith(".edit"):
            to = turned(old, new)
        else:
            to = antt(old, new, outside(old))
        # the library's Prelude, which a crate above std names by std
        to = re.sub(r"\bRattle\.core\.", "Rattle.std.", to)
        if to != old:
            write(path, to)
    for top in DOCUMENTS:
        for path in [top] if os.path.isfile(top) else files(top, ".md"):
            old = read(path)
            to = in_ticks(old, new)
            if to != old:
                write(path, to)


def own(text):
    """The names that a function's proof declares itself: they are respelled when that proof takes today's form."""
    out = set()
    for line in text.split("\n"):
        m = DECLARED.match(line)
        if m and not line.startswith(" "):
            out.add(m.group(3))
    return out


if __name__ == "__main__":
    if sys.argv[1:] == ["crate"]:
        crate()
    elif sys.argv[1:] == ["names"]:
        names(False)
    elif sys.argv[1:] == ["names", "--say"]:
        names(True)
    else:
        print(__doc__)
        sys.exit(2)
