#!/usr/bin/env python3
"""Brings the names of this repository's own definitions and lemmas to today's spelling, once, after port.py.

usage: python3 tools/respell.py [--dry]      at the top of the repository
       python3 tools/respell.py --again      turns imports that an earlier run left, by tools/respelled.tsv
       python3 tools/respell.py --told       takes the new names from tools/respelled.tsv, as to lay another commit beside this one

A name of a value or a lemma gets words in snake case: `shapeGood` is `shape_good`, `every-at` is `every_at`. A dash stays where it joins
two names of definitions. Types, modules and the code's own names stay. A name is turned in the file that defines it and where it is
imported from a crate of this repository, so a name of the library stays as it is. Where two names would fall together the lemma gets
`_lem`. Proof.antt files, which walk code, keep the names of their parts.
"""

import collections
import os
import re
import sys

IDENT = r"[^\s(){}\[\];,.]+"
DEFINED = re.compile(r"^(\s*)((?:(?:abbrev|unfoldable|pub)\s+)*)(%s) :(?=\s|$)" % IDENT)
RECORD = re.compile(r"^\s*(?:pub\s+)?(?:record|data)\s+(%s)" % IDENT)
USE = re.compile(r"(?<![\w.])use\s+([^\s;{}]+?)\.\{([^}]*)\}", re.S)
ALIAS = re.compile(r"(?m)use\s+(\S+)\s+as\s+(\S+?);?$")


# words that join others, and name nothing by themselves
SMALL = set("a after all and at before behind below between by each for from if in into is more no none not of off on one or out over same so the then to up with".split())


def crates():
    with open("crates.txt", encoding="utf-8") as f:
        return [line.split(":")[0].split()[0] for line in f if line.strip() and not line.startswith("#")]


def files(ending):
    for folder, dirs, names in os.walk("crates"):
        dirs[:] = sorted(d for d in dirs if d != "out")
        for name in sorted(names):
            if name.endswith(ending):
                yield os.path.join(folder, name)


def walks(path):
    return path.endswith("/Proof.antt")


def snake(word):
    if not re.match(r"[a-z]", word):
        return word
    word = re.sub(r"([a-z0-9'])([A-Z])", r"\1_\2", word)
    return re.sub(r"([A-Z]+)", lambda m: m.group(1).lower(), word)


def respelled(name, nouns):
    parts = name.split("-")
    if len(parts) == 1:
        return snake(name)
    turned = [snake(p) for p in parts]
    out = turned[0]
    for i in range(1, len(parts)):
        out += ("-" if parts[i - 1] in nouns and parts[i] in nouns else "_") + turned[i]
    return out


def told_apart(new, defined, nouns, texts, own):
    """Where two names would be one, the lemma's gets `_lem`; and so does a part of a file's own that has such a name already."""
    by_target = collections.defaultdict(list)
    for name, to in new.items():
        by_target[to].append(name)
    for to, names in by_target.items():
        if len(names) > 1:
            for name in names:
                if "-" in name:
                    new[name] = to + "_lem"
    parts = collections.defaultdict(dict)
    for path, text in texts.items():
        if not path.endswith(".antt") or walks(path):
            continue
        mine = imported(text, own)[0] | {n for n in defined if path in defined[n]}
        tokens = set(re.findall(IDENT, re.sub(r"(?m)--.*$", "", text)))
        for name in sorted(mine & set(new)):
            to = new[name]
            if to in tokens and name in tokens:
                if "-" in name:
                    new[name] = to + "_lem"
                else:
                    parts[path][to] = to + "_lem"
    for path, turned in list(parts.items()):
        module = "Rattle." + path[len("crates/") : -len(".antt")].replace("/", ".")
        for other, text in texts.items():
            for m in USE.finditer(text):
                if m.group(1) == module:
                    for name in turned:
                        if path in defined[name] and name in m.group(2).replace(",", " ").split():
                            parts[other][name] = turned[name]
    return parts


def in_use(piece, at):
    """Whether a place stands in the braces of a `use`, where an item may have its module before it, as `Limits.block_size`."""
    start = max((m.end() for m in re.finditer(r"use\s+[^\s;{}]+?\.\{", piece[:at])), default=-1)
    return start >= 0 and "}" not in piece[start:at]


def fields_of(text):
    """The fields of a file's records: what is defined in a record's block, one step further in than its head."""
    out, deep = set(), None
    for line in text.splitlines():
        m = re.match(r"^(\s*)(?:pub\s+)?record\s", line)
        if m:
            deep = len(m.group(1))
            continue
        m = DEFINED.match(line)
        if deep is not None and line.strip():
            if len(line) - len(line.lstrip()) <= deep:
                deep = None
            elif m:
                out.add(m.group(3))
    return out


def imported(text, own):
    mine, theirs = set(), set()
    for m in USE.finditer(text):
        inside = ".".join(m.group(1).split(".")[:2]) in own
        for item in m.group(2).split(","):
            for word in item.split():
                (mine if inside else theirs).add(word.split(".")[-1])
    return mine, theirs


def turns(name):
    return "-" in name or (re.match(r"[a-z]", name) and re.search(r"[A-Z]", name))


def main(argv):
    dry = "--dry" in argv
    again = "--again" in argv
    own = {f"Rattle.{c}" for c in crates()} | {f"Rattle.{c}" for c in os.listdir("crates")}
    defined, nouns = collections.defaultdict(list), set()
    texts = {}
    for path in list(files(".antt")) + list(files(".rt")):
        with open(path, encoding="utf-8") as f:
            texts[path] = f.read()
    for path, text in texts.items():
        if not path.endswith(".antt") or walks(path):
            continue
        for line in text.splitlines():
            if line.lstrip().startswith("--"):
                continue
            m = RECORD.match(line)
            if m:
                nouns.add(m.group(1))
            m = DEFINED.match(line)
            if m:
                defined[m.group(3)].append(path)
                if "abbrev" in m.group(2) or "unfoldable" in m.group(2):
                    nouns.add(m.group(3))
    nouns -= SMALL
    new = {}
    for name in defined:
        if turns(name):
            to = respelled(name, nouns)
            if to != name:
                new[name] = to
    if "--told" in argv:
        with open("tools/respelled.tsv", encoding="utf-8") as f:
            told_names = dict(line.rstrip("\n").split("\t") for line in f)
        new = {n: told_names[n] for n in new if n in told_names}
    parts = collections.defaultdict(dict) if again else told_apart(new, defined, nouns, texts, own)
    if again:
        with open("tools/respelled.tsv", encoding="utf-8") as f:
            new = dict(line.rstrip("\n").split("\t") for line in f)
    members = {n for path, text in texts.items() if path.endswith(".antt") for n in fields_of(text)}
    told = 0
    for path, text in sorted(texts.items()):
        mine, theirs = imported(text, own)
        if path.endswith(".antt") and not walks(path):
            mine |= {n for n in defined if path in defined[n]}
        here = {n: to for n, to in new.items() if n in mine} | parts[path]
        for n in sorted(set(here) & theirs):
            print(f"told: {path}: {n} is the library's and ours")
            told += 1
        aliases = {m.group(2) for m in ALIAS.finditer(text) if ".".join(m.group(1).split(".")[:2]) in own}

        def turn(piece):
            def one(m):
                w = m.group(0)
                before = piece[m.start() - 1] if m.start() else " "
                if before == "." and in_use(piece, m.start()):
                    return here.get(w, w)
                if before == ".":
                    head = re.search(IDENT + r"\.$", piece[: m.start()])
                    if head and head.group(0)[:-1] in aliases:
                        return new.get(w, w)
                    return new[w] if w in members and w in new else w
                if w in members and w in new and re.match(r"\s+=\s", piece[m.end() :]):
                    return new[w]
                return here.get(w, w)
            return re.sub(IDENT, one, piece)

        comment = "--" if path.endswith(".antt") else "//"
        out = []
        for line in text.split("\n"):
            m = re.search(r"(^|\s)" + comment + r"(\s|$)", line)
            cut = m.start() if m else len(line)
            code, rest = line[:cut], line[cut:]
            if path.endswith(".rt"):
                pieces = re.split(r'("(?:[^"\\]|\\.)*")', code)
                code = "".join(p if i % 2 else turn(p) for i, p in enumerate(pieces))
            else:
                code = turn(code)
            rest = re.sub(r"`(%s)`" % IDENT, lambda m: "`" + new.get(m.group(1), m.group(1)) + "`", rest)
            rest = re.sub(r"(?<![\w/.`'-])([a-z]\w*[A-Z]\w*)(?![\w'-])", lambda m: here.get(m.group(1), m.group(1)), rest)
            out.append(code + rest)
        turned = "\n".join(out)
        if turned != text and not dry:
            with open(path, "w", encoding="utf-8") as f:
                f.write(turned)
    if again or "--told" in argv:
        return
    with open("tools/respelled.tsv", "w", encoding="utf-8") as f:
        f.writelines(f"{a}\t{b}\n" for a, b in sorted(new.items()))
    print(f"{len(new)} names, {told} told")


if __name__ == "__main__":
    raise SystemExit(main(sys.argv[1:]))
