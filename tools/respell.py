#!/usr/bin/env python3
"""Brings the repository's own definitions, lemmas, fields and constructors to today's spelling.

usage: tools/respell.py [--list]     at the top of the repository; --list prints the names and writes nothing

Words are in snake case and types in upper camel case. A lemma keeps the dash between two functions
that it speaks of (`length-put`), and a plain word is added with `_` (`put_short`).
Text of src/ is Rust's and keeps its names: only its ghost lines and clauses name what is respelled.
Names that Rattle makes (goals, steps) and names of the library are left alone.
"""

import os
import re
import sys

STD = {"length", "take", "drop", "append", "set", "map", "decimal"}
IDENT = re.compile(r"[A-Za-z0-9_'·\u2080-\u2089-]+")
HEAD = re.compile(
    r"^(?P<in>\s*)(?P<words>(?:(?:abbrev|unfoldable|pub|data|record|mutual)\s+)*)(?P<name>[A-Za-z][A-Za-z0-9_'·\u2080-\u2089-]*)\s*(?:\(.*\)\s*|\{.*\}\s*)*:(?P<type>(?!:).*)"
)
USE = re.compile(r"^\s*(?:ghost )?use ([^\s{;]+)\.\{([^}]*)\}", re.M)


def files(root, ends):
    for folder, dirs, names in os.walk(os.path.join(root, "crates")):
        dirs[:] = sorted(d for d in dirs if d != "out")
        for name in sorted(names):
            if name.endswith(ends):
                yield os.path.join(folder, name)


def read(path):
    with open(path, encoding="utf-8") as f:
        return f.read()


def snake(name):
    name = re.sub(r"(?<=[a-z0-9])([A-Z])(?=[a-z])", lambda m: "_" + m.group(1).lower(), name)
    return name.replace("-", "_")


def camel(name):
    head, *rest = name.split("-")
    return head + "".join(w[:1].upper() + w[1:] for w in rest)


def lemma(name, functions):
    """A lemma's name: a dash between two functions, else `_`."""
    words = re.sub(r"(?<=[a-z0-9])([A-Z])(?=[a-z])", lambda m: "-" + m.group(1).lower(), name).split("-")
    parts, i = [], 0
    while i < len(words):
        for j in range(len(words), i, -1):
            word = "_".join(words[i:j])
            if word in functions:
                parts.append((word, True))
                i = j
                break
        else:
            parts.append((words[i], False))
            i += 1
    out = parts[0][0]
    for (_, before), (word, here) in zip(parts, parts[1:]):
        out += ("-" if before and here else "_") + word
    return out


def names(root):
    """Each own name that is to change, and what it becomes."""
    words, lemmas, made = set(), set(), set()
    for path in files(root, ".antt"):
        text = read(path)
        proofs = "/proofs/" in path
        for line in text.splitlines():
            m = HEAD.match(line)
            if not m or m["name"] in ("let", "λ", "use", "mod", "elim"):
                continue
            name, kind = m["name"], m["type"].strip()
            if re.match(r"(goal|Goals|need)\.", kind):
                made.add(name)
            elif proofs and not re.search(r"\b(data|record)\b", m["words"]):
                lemmas.add(name)
            else:
                words.add(name)
    bad = re.compile(r"-|[a-z0-9][A-Z]|·")
    functions = STD | {snake(w) for w in words if not w[0].isupper()}
    out = {}
    for name in sorted((words | lemmas) - made):
        if not bad.search(name):
            continue
        if name[0].isupper():
            new = camel(name) if "-" in name else name
        elif name in words:
            new = snake(name)
        else:
            new = lemma(name, functions)
        if new != name:
            out[name] = new
    # the proofs that a record's derivings make
    for path in files(root, ".antt"):
        for m in re.finditer(r"deriving IsProp as (\w+)·(\w+)", read(path)):
            out[f"{m[1]}·{m[2]}"] = f"{m[1]}-{m[2]}"
    return out


def library(text):
    """The names that a file takes from elsewhere than this repository's crates, as they stand there."""
    taken = set()
    for m in USE.finditer(text):
        if not re.match(r"Rattle\.(%s)\." % "|".join(CRATES), m[1]):
            taken |= {w.split(" as ")[0].strip() for w in m[2].split(",")}
    return taken


def ghost_parts(text):
    """The spans of a source file that are ghost: `ghost` items and clauses, to their closing brace."""
    for m in re.finditer(r"\bghost use [^;]*;|\b(?:ghost(?: \w+)?(?: =|:)|requires\*?(?: \w+)?|ensures\*?(?: \w+)?) \{", text):
        if text[m.end() - 1] == ";":
            yield m.start(), m.end()
            continue
        depth, i = 1, m.end()
        while depth:
            depth += {"{": 1, "}": -1}.get(text[i], 0)
            i += 1
        yield m.start(), i


def respell(text, table, source):
    known = {k: v for k, v in table.items() if k not in library(text)}

    def turn(part):
        return IDENT.sub(lambda m: known.get(m[0], m[0]), part)

    if not source:
        return turn(text)
    out, at = [], 0
    for start, end in ghost_parts(text):
        if start < at:
            continue
        out += [text[at:start], turn(text[start:end])]
        at = end
    return "".join(out) + text[at:]


def page(text, table):
    """A page names what is respelled between backticks."""
    return re.sub(r"`([^`\n]+)`", lambda m: "`" + table.get(m[1], m[1]) + "`", text)


def main():
    root = "."
    global CRATES
    CRATES = sorted(os.listdir(os.path.join(root, "crates")))
    table = names(root)
    if "--list" in sys.argv:
        for old, new in table.items():
            print(old, new)
        return
    back = {}
    for old, new in table.items():
        back.setdefault(new, []).append(old)
    everywhere = set()
    for path in files(root, ".antt"):
        everywhere |= set(IDENT.findall(read(path)))
    for new, olds in sorted(back.items()):
        if len(olds) > 1:
            print("falls together:", new, olds)
        elif new in everywhere:
            print("stands already:", new, olds[0])
    for path in files(root, (".antt", ".rt")):
        old = read(path)
        new = respell(old, table, path.endswith(".rt"))
        if new != old:
            with open(path, "w", encoding="utf-8") as f:
                f.write(new)
    pages = [os.path.join("docs", p) for p in sorted(os.listdir("docs")) if p.endswith(".md")] + ["README.md"]
    for path in pages:
        old = read(path)
        new = page(old, table)
        if new != old:
            with open(path, "w", encoding="utf-8") as f:
                f.write(new)
    print(len(table), "names respelled")


main()
