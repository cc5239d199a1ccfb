#!/usr/bin/env python3
"""Respells the definitions and lemmas of this repository as today's Rattle spells names: all but types and modules in snake case, a dash only between
two names (as in `length-drop`). Run once, at the top, after the kit's port.py. Rust items, C names, strings and what Rattle makes keep theirs.

usage: respell.py [--check]     --check writes nothing, and prints which names fall together in a file
"""
import glob
import pathlib
import re
import sys

WORD = re.compile(r'[^\s(){}.;,@"«»`\[\]]+')
DECLARED = re.compile(
    r"^(\s*)((?:(?:pattern|unfoldable|abbrev|pub|axiom|data|record)\s+)*)([^\s(){}.;,@\"«»]+)\s*(?:\([^\n]*?\)\s*|\{[^\n]*?\}\s*)*:\s",
    re.M,
)
# words of the logic's own library that a dash may join to a name, and the library's words for operators
LIBRARY = set("length take drop append map cond and or not le lt eq mem add sub mul div mod pow replicate filter".split())
# old words of the library inside names of lemmas
LIBRARY_TURNED = {"getD": "get_or"}


def snake(part):
    part = LIBRARY_TURNED.get(part, part)
    if part[:1].isupper():
        return part
    part = re.sub(r"(?<=[a-z0-9])([A-Z])", lambda m: "_" + m.group(1).lower(), part)
    return re.sub(r"(?<=_to)(\d)", r"_\1", part)


def declared(paths):
    names = []
    for path in paths:
        names += [m.group(3) for m in DECLARED.finditer(pathlib.Path(path).read_text(encoding="utf-8"))]
    return names


def table():
    specs = sorted(glob.glob("crates/*/specs/**/*.antt", recursive=True))
    lemmas = sorted(glob.glob("crates/*/proofs/*.antt"))
    simple = {snake(n) for n in declared(specs) if "-" not in n}
    for path in glob.glob("crates/*/src/**/*.rt", recursive=True):
        simple |= set(re.findall(r"\bfn (\w+)", pathlib.Path(path).read_text(encoding="utf-8")))
    simple |= LIBRARY
    turned = {}
    for name in declared(specs + lemmas):
        if not name.strip("-") or not re.search(r"[A-Za-z]", name):
            continue
        parts = [snake(p) for p in name.split("-")]
        new = parts[0]
        for left, right in zip(parts, parts[1:]):
            new += ("-" if left in simple and right in simple else "_") + right
        if new != name:
            turned[name] = new
    # a lemma that would have its function's name
    functions = {n for n in simple} | {n for n in declared(specs + lemmas) if "-" not in n and n not in turned}
    functions |= {new for old, new in turned.items() if "-" not in old}
    for old, new in turned.items():
        if "-" in old and new in functions:
            turned[old] = new + "_lem"
    return turned


def turn_words(text, turned, behind_dot):
    """Each whole word of a text; behind a dot only what `behind_dot` allows."""
    def one(m):
        old = m.group(0)
        bare = old.rstrip("'")
        if bare not in turned:
            return old
        if m.start() and text[m.start() - 1] == "." and not behind_dot(bare):
            return old
        return turned[bare] + old[len(bare):]
    return WORD.sub(one, text)


def turn_comment(text, turned):
    text = re.sub(r"`[^`\n]*`", lambda m: turn_words(m.group(0), turned, lambda n: True), text)
    camel = {n: t for n, t in turned.items() if re.search(r"[a-z0-9][A-Z]", n)}
    return re.sub(r"(?<![\w`-])[a-z]\w*[a-z0-9][A-Z]\w*(?:-\w+)*", lambda m: camel.get(m.group(0), m.group(0)), text)


def turn_antt(text, turned, behind_dot):
    out = []
    for line in text.split("\n"):
        cut = re.search(r"(?<![^\s(){}.;,@\"«»])--(?:\s|$)", line)
        at = cut.start() if cut else len(line)
        out.append(turn_words(line[:at], turned, behind_dot) + turn_comment(line[at:], turned))
    return "\n".join(out)


GHOST = re.compile(r"\bghost use\b[^;]*;|(?:requires|ensures)\s*\*?\s*(?:\w+\s*)?\{", re.S)


def clause_end(text, at):
    depth = 0
    for i in range(at, len(text)):
        depth += {"{": 1, "}": -1}.get(text[i], 0)
        if depth == 0:
            return i + 1
    return len(text)


def turn_rt(text, turned):
    out, at = [], 0
    for m in GHOST.finditer(text):
        if m.start() < at:
            continue
        end = m.end() if m.group(0).endswith(";") else clause_end(text, m.end() - 1)
        out.append(turn_plain(text[at:m.start()], turned))
        out.append(turn_words(text[m.start():end], turned, lambda n: True))
        at = end
    out.append(turn_plain(text[at:], turned))
    return "".join(out)


def turn_plain(text, turned):
    """What is no clause: comments alone."""
    return re.sub(r"//[^\n]*", lambda m: turn_comment(m.group(0), turned), text)


def fields():
    names = set()
    for path in glob.glob("crates/*/specs/**/*.antt", recursive=True) + glob.glob("crates/*/proofs/*.antt"):
        names |= {m.group(3) for m in DECLARED.finditer(pathlib.Path(path).read_text(encoding="utf-8")) if m.group(1)}
    return names


def main():
    check = "--check" in sys.argv
    turned = table()
    of_records = fields()
    together = {}
    for old, new in turned.items():
        together.setdefault(new, set()).add(old)
    for new, olds in together.items():
        if len(olds) > 1:
            print("fall together:", new, sorted(olds))
    paths = sorted(glob.glob("crates/*/specs/**/*.antt", recursive=True) + glob.glob("crates/*/proofs/**/*.antt", recursive=True)
                   + glob.glob("crates/*/src/**/*.rt", recursive=True) + glob.glob("crates/*/must-fail/*.edit"))
    for name in paths:
        path = pathlib.Path(name)
        text = path.read_text(encoding="utf-8")
        words = {w.rstrip("'") for w in WORD.findall(text)}
        for word in sorted(words & turned.keys()):
            if turned[word] in words:
                print("%s: %s and %s" % (name, word, turned[word]))
        inner = re.match(r"crates/\w+/proofs/\w+/", name)
        if path.suffix == ".rt":
            new = turn_rt(text, turned)
        elif path.suffix == ".edit":
            in_code = re.search(r"^file: src/", text, re.M)
            new = "\n".join(turn_words(l, turned, lambda n: True) if l.startswith(("old:", "new:")) and not (in_code and not re.search(r"ensures|requires|ghost", l)) else l for l in text.split("\n"))
        else:
            new = turn_antt(text, turned, (lambda n: n in of_records) if inner else (lambda n: True))
        if new != text and not check:
            path.write_text(new, encoding="utf-8")
    return 0


if __name__ == "__main__":
    raise SystemExit(main())
