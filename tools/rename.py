#!/usr/bin/env python3
"""Brings the names of this repository's definitions, laws and fields in specs/ and proofs/ to snake case.

usage: python3 tools/rename.py          at the top of the repository, once, after the toolchain's port.py
       python3 tools/rename.py --list   prints each name with its new one, and changes nothing

Types, modules and the constructors that begin with a capital keep their names. In src/ only what clauses and `ghost use` lines say is
turned: functions, strings and comments stay, but for names in backquotes in comments. It ends with 1, and changes nothing, where two names
of one file would fall together.
"""
import collections
import os
import re
import sys

# A name of antt, as a token: what stands between spaces, brackets and the signs that part terms.
TOKEN = re.compile(r"[^\s(){}\[\],;.λ\"`:]+")
# Names that would fall together with another one in snake case; a law that would have its function's name gets `_lem`.
APART = {
    "leftOver": "left_over_of",
    "isField": "is_field_state",
    "has-key": "has_key_lem",
    "line-fields": "line_fields_lem",
    "part-of": "part_of_lem",
    "lines-of": "lines_of_lem",
    "sign_text": "sign_text_lem",
    "from_field": "from_field_lem",
    "first_field": "first_field_lem",
}
# The same in one crate alone.
APART_IN = {"codec": {"all_digits": "all_digits_lem"}}


def files(root, endings):
    for folder, dirs, names in os.walk(os.path.join(root, "crates")):
        dirs[:] = sorted(d for d in dirs if d not in ("out", "target"))
        for name in sorted(names):
            if name.endswith(endings):
                yield os.path.join(folder, name)


def is_odd(name):
    return not name[0].isupper() and ("-" in name[1:] or re.search(r"[a-z][A-Z]", name) is not None)


def declared(root):
    """The names that the repository's own .antt files declare: definitions, laws, fields and constructors."""
    found = set()
    for path in files(root, (".antt",)):
        if "/proofs/" in path and os.path.basename(path) in ("Answers.antt", "Invariants.antt"):
            continue
        kind = inside = False
        with open(path, encoding="utf-8") as f:
            for line in f:
                text = line.rstrip("\n")
                if not text.strip() or text.lstrip().startswith("--"):
                    continue
                if not text.startswith(" "):
                    inside = text.startswith("module ")
                    kind = re.match(r"(?:(?:pub|abbrev|unfoldable)\s+)*(record|data)\s", text) is not None
                    m = re.match(r"(?:(?:pub|abbrev|unfoldable)\s+)*([^\s:(){},;=.]+)\s+:(?:\s|$)", text)
                    if m and m.group(1) not in ("use", "mod", "record", "data"):
                        found.add(m.group(1))
                elif kind or inside:
                    m = re.match(r" +(?:(?:pub|abbrev|unfoldable)\s+)*([^\s:(){},;=.]+)\s+:(?:\s|$)", text)
                    if m:
                        found.add(m.group(1))
    return {n for n in found if is_odd(n)}


def turned(name):
    name = name.replace("-", "_")
    return re.sub(r"([a-z0-9])([A-Z])", lambda m: m.group(1) + "_" + m.group(2).lower(), name)


def renamed(odd):
    """Each name with its new one."""
    camel = {turned(n) for n in odd if "-" not in n}
    names = {n: turned(n) + ("_lem" if "-" in n and turned(n) in camel else "") for n in sorted(odd)}
    names.update(APART)
    return names


def turn(text, names):
    return TOKEN.sub(lambda m: names.get(m.group(0), m.group(0)), text)


def turn_comment(text, names):
    return re.sub(r"`([^`\s]+)`", lambda m: "`" + names.get(m.group(1), m.group(1)) + "`", text)


def turn_antt(text, names):
    lines = []
    for line in text.split("\n"):
        at = re.search(r"(?:^|\s)--(?:\s|$)", line)
        if at:
            lines.append(turn(line[: at.start()], names) + turn_comment(line[at.start() :], names))
        else:
            lines.append(turn(line, names))
    return "\n".join(lines)


def turn_rt(text, names):
    """Turns clauses (in braces behind a clause's word) and ghost use lines, and backquoted names in comments."""
    out, at = [], 0
    starts = re.compile(r"//[^\n]*|\"(?:\\.|[^\"\\])*\"|\bghost use [^;]*;|\b(?:requires|ensures|ghost|invariant|decreases)\b(?:\s+\w+)?\*?\s*\{")
    while True:
        m = starts.search(text, at)
        if not m:
            out.append(text[at:])
            return "".join(out)
        out.append(text[at : m.start()])
        said = m.group(0)
        if said.startswith("//"):
            out.append(turn_comment(said, names))
            at = m.end()
        elif said.startswith('"'):
            out.append(said)
            at = m.end()
        elif said.startswith("ghost use"):
            out.append(turn(said, names))
            at = m.end()
        else:
            depth, end = 1, m.end()
            while depth:
                depth += {"{": 1, "}": -1}.get(text[end], 0)
                end += 1
            out.append(said + turn(text[m.end() : end], names))
            at = end


def main():
    root = os.path.dirname(os.path.dirname(os.path.realpath(__file__)))
    if os.getcwd() != root and os.path.isdir("crates"):
        root = os.getcwd()
    every = renamed(declared(root))
    names = every
    if "--list" in sys.argv:
        for old, new in names.items():
            print(old, new)
        return 0
    changed, together = {}, []
    for path in files(root, (".antt", ".rt", ".edit")):
        with open(path, encoding="utf-8") as f:
            text = f.read()
        names = dict(every)
        names.update(APART_IN.get(os.path.relpath(path, root).split(os.sep)[1], {}))
        now = (turn_antt if path.endswith(".antt") else turn_rt)(text, names)
        if path.endswith(".antt"):
            code = "\n".join(re.sub(r"(?:^|\s)--(?:\s.*|$)", "", line) for line in text.split("\n"))
            seen = collections.defaultdict(set)
            for m in TOKEN.finditer(code):
                if code[m.start() - 1] != ".":
                    seen[names.get(m.group(0), m.group(0))].add(m.group(0))
            together += [(path, new, sorted(olds)) for new, olds in seen.items() if len(olds) > 1]
        if now != text:
            changed[path] = now
    for path, new, olds in together:
        print(f"together: {os.path.relpath(path, root)}: {' '.join(olds)} -> {new}")
    if together:
        return 1
    for path, now in changed.items():
        with open(path, "w", encoding="utf-8") as f:
            f.write(now)
    print(f"{len(changed)} files turned, {len(every)} names")
    return 0


if __name__ == "__main__":
    sys.exit(main())
