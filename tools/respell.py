#!/usr/bin/env python3
"""Brings the definitions and lemmas of specs/ and proofs/ to one spelling: snake case, with a dash only where it joins two names.

usage: tools/respell.py [--list]      at the top of the repository; --list prints each old name, a tab and the new one, and writes nothing

Names that begin with a capital (types, facts, constructors, modules) stay, and so does every name of src/. `getD`, the older word for `get_or`, is
replaced by it. In the comments only names with a hump or in backticks are turned. A new name that a file already has for another thing is an error.
"""

import collections
import glob
import re
import sys

DECLARED = re.compile(r"^( *)((?:(?:pattern|unfoldable|abbrev|pub) )*)([^\s(){}:=;,.]+)((?: \{[^}]*\})*) :(?= |$)(.*)")
TOKEN = re.compile(r"[^\s(){}.;,@\"«»\[\]`\\]+")
OPERATORS = "le lt mem subset sublist perm length append map take drop set get_or cond not and or add mul sub div mod suc zero load".split()


def files(kind):
    return sorted(glob.glob(f"crates/*/{kind}/**/*.antt", recursive=True))


def read(path):
    with open(path, encoding="utf-8") as f:
        return f.read()


def code_of(line):
    """The line's code and its comment."""
    at = re.search(r"(?:^|(?<=\s))--(?=\s|$|-)", line)
    return (line, "") if not at else (line[: at.start()], line[at.start() :])


def declared(*kinds):
    """The names that the files of these kinds declare, but for those that answer a goal that Rattle makes."""
    found = set()
    for path in [path for kind in kinds for path in files(kind)]:
        lines = read(path).split("\n")
        for i, line in enumerate(lines):
            m = DECLARED.match(code_of(line)[0])
            if not m:
                continue
            says = m[5].strip() or (lines[i + 1].strip() if i + 1 < len(lines) else "")
            if not re.match(r"\(?tie\.(Need|invariant|decreases)", says) and re.match(r"[a-z]", m[3]):
                found.add(m[3])
    return found


def snake(part):
    part = part.replace("getD", "get_or")
    return re.sub(r"(?<=[a-z0-9])([A-Z])", lambda m: "_" + m[1].lower(), part) if part[:1].islower() else part


def table():
    names = declared("specs", "proofs")
    specs = declared("specs")
    parts = set(OPERATORS) | {snake(n) for n in specs if "-" not in n}
    to = {}
    for n in sorted(names, key=lambda n: ("-" in n, n)):
        bits = [snake(b) for b in n.split("-")]
        new = bits[0]
        for before, bit in zip(bits, bits[1:]):
            new += ("-" if before in parts and (bit in parts or bit[:1].isupper()) else "_") + bit
        if n.endswith("-spec"):
            new = "_".join(bits)  # the proof of a function
        if new != n and new in names and n in specs:
            to[new] = new + "_lem"
        elif new in to.values() or new != n and new in names:
            new += "_lem"  # a lemma that would have its definition's name
        if new != n:
            to[n] = new
    if len(set(to.values())) != len(to):
        raise SystemExit("respell: names fall together")
    return to


def turn(text, to):
    return TOKEN.sub(lambda m: to.get(m[0], m[0]), text)


def turn_comment(text, to):
    humps = {n: new for n, new in to.items() if re.search("[a-z][A-Z]", n)}
    text = re.sub(r"(?<![\w-])[\w-]+'*(?![\w-])", lambda m: humps.get(m[0], m[0]), text)
    return re.sub(r"`[^`]*`", lambda m: turn(m[0], to), text)


def clashes(path, text, to):
    """Names that the file has already for what another name is to be called."""
    tokens = set()
    for line in text.split("\n"):
        code = code_of(line)[0]
        tokens.update(m[0] for m in TOKEN.finditer(code) if code[m.start() - 1 : m.start()] != ".")
    olds = collections.defaultdict(set)
    for t in tokens:
        olds[to.get(t, t)].add(t)
    return [f"{path}: {' and '.join(sorted(o))} would be {n}" for n, o in sorted(olds.items()) if len(o) > 1]


def main(argv):
    to = table()
    if argv == ["--list"]:
        for n, new in sorted(to.items()):
            print(f"{n}\t{new}")
        return 0
    if argv:
        print(__doc__)
        return 2
    said, texts = [], {}
    for path in files("specs") + files("proofs"):
        text = read(path)
        said += clashes(path, text, to)
        texts[path] = "\n".join(turn(code, to) + turn_comment(comment, to) for code, comment in map(code_of, text.split("\n")))
    for path in sorted(glob.glob("crates/*/src/**/*.rt", recursive=True)):
        out = []
        for line in read(path).split("\n"):
            code, slashes, comment = line.partition("//")
            out.append(turn(code, to) + slashes + turn_comment(comment, to))
        texts[path] = "\n".join(out)
    for path in sorted(glob.glob("crates/*/must-fail/*.edit")):
        texts[path] = "\n".join(turn(l, to) if re.match("(old|new): ", l) else l for l in read(path).split("\n"))
    for line in said:
        print("clash: " + line)
    if said:
        return 1
    for path, text in texts.items():
        if text != read(path):
            with open(path, "w", encoding="utf-8") as f:
                f.write(text)
    print(f"respell: {len(to)} names")
    return 0


if __name__ == "__main__":
    raise SystemExit(main(sys.argv[1:]))
