#!/usr/bin/env python3
"""Counts, for docs/DESIGN-PASS.md, the places of its points in crates/*/src (and of point 8 in proofs/): tools/design_counts.py [FOLDER]."""
import collections
import pathlib
import re
import sys

ROOT = pathlib.Path(sys.argv[1] if len(sys.argv) > 1 else ".")
SOURCES = sorted(ROOT.glob("crates/*/src/*.rt"))
TEXT = {p: p.read_text() for p in SOURCES}
SIGNATURE = re.compile(r"^( *(?:pub(?:\([a-z]+\))? )?(?:extern \"C\" )?fn (\w+).*?)^ *\{$(.*?)^ *\}$", re.S | re.M)


def functions():
    for path, text in TEXT.items():
        for m in SIGNATURE.finditer(text):
            yield path.parts[-3], m.group(2), m.group(1), m.group(3)


def told(title, places):
    places = list(places)
    print(f"{title}: {len(places)}")
    by = collections.Counter(p.split("/")[0] for p in places)
    print("   ", ", ".join(f"{crate} {n}" for crate, n in by.items()))
    if "-v" in sys.argv:
        for place in places:
            print("     ", place)


FUNCTIONS = list(functions())

# 1: a number for a refusal or a fault as a result; the same as a field; enums with a value in a variant; constants that number kinds
told("1a functions that give a refusal or fault as u8", (
    f"{c}/{f}" for c, f, head, _ in FUNCTIONS if re.search(r"-> u8\b", head) and re.search(r"refusal|fault|refused", head.lower())))
told("1b fields refusal, fault, phase: u8", (
    f"{p.parts[-3]}/{m.group(1)}.{f}" for p, t in TEXT.items() for m in re.finditer(r"struct (\w+)[^{;]*\{(.*?)^\}", t, re.S | re.M)
    for f in re.findall(r"(refusal|fault|phase): u8", m.group(2))))
told("1c enums with a value in a variant", (
    f"{p.parts[-3]}/{m.group(1)}" for p, t in TEXT.items() for m in re.finditer(r"enum (\w+)[^{]*\{(.*?)^\}", t, re.S | re.M) if "(" in m.group(2)))
told("1d numbers that name kinds (const NAME: u8 = n)", (
    f"{p.parts[-3]}/{n}" for p, t in TEXT.items() for n in re.findall(r"const (\w+): u8 = \d+;", t)))


# 2: functions told alike: bodies equal once names and numbers are taken out, of six lines or more
def shape(body):
    return re.sub(r"\w+", "x", re.sub(r"//.*", "", body))


groups = collections.defaultdict(list)
for c, f, head, body in FUNCTIONS:
    if body.count("\n") >= 6:
        groups[shape(body)].append(f"{c}/{f}")
told("2a functions of six lines or more with a body of the same shape as another's", (p for g in groups.values() if len(g) > 1 for p in g))
names = {(c, f) for c, f, _, _ in FUNCTIONS}
told("2b pairs NAME and NAME_by, NAME_short and NAME_long", (
    f"{c}/{f}" for c, f in sorted(names) for end in ("_by", "_long") if f.endswith(end) and ((c, f[: -len(end)]) in names or (c, f.replace("_long", "_short")) in names)))

# 3: while loops
told("3 while loops", (f"{p.parts[-3]}/{p.name}:{t[: m.start()].count(chr(10)) + 1}" for p, t in TEXT.items() for m in re.finditer(r"^ *while ", t, re.M)))

# 4: comparisons, copies and conversions by hand
told("4a calls of wide, wide_u32, wide_u64, wide_at", (
    f"{p.parts[-3]}/{p.name}" for p, t in TEXT.items() for _ in re.finditer(r"\bwide(_u32|_u64|_at)?\(", t)))
told("4b functions that a library has", (
    f"{c}/{f}" for c, f, _, _ in FUNCTIONS if re.fullmatch(r"wide\w*|smaller|larger|lesser|at_most_16|one_less|compare|compare_stamps|same|not_less|kind_code|kind_of|order_of|code_of|refusal_of|flag|bare_cost|place_of", f)))
told("4c functions that copy a struct field by field (four fields or more)", (
    f"{c}/{f}" for c, f, _, b in FUNCTIONS if len(re.findall(r"^ *(\w+): \w+\.\1,$", b, re.M)) + len(re.findall(r"^ *let (\w+) = \w+\.\1;$", b, re.M)) >= 4))
told("4d derives of Clone, Copy alone", (f"{p.parts[-3]}/{m.group(1)}" for p, t in TEXT.items() for m in re.finditer(r"derive\(Clone, Copy\)\]\n(?:pub(?:\(crate\))? )?(?:struct|enum) (\w+)", t)))
told("4e ladders: if !test { return false; }", (f"{p.parts[-3]}/{p.name}" for p, t in TEXT.items() for _ in re.finditer(r"if [^{}]*\{\s*return (?:false|true);\s*\}", t)))

# 5: a conjunct of requires in three functions or more; a run of three parameters or more in three functions or more
conjuncts = collections.defaultdict(set)
runs = collections.defaultdict(set)
for c, f, head, _ in FUNCTIONS:
    for clause in re.findall(r"requires \{(.*?)\}$", head, re.S | re.M):
        for part in clause.split("×"):
            conjuncts[(c, part.strip().strip("()"))].add(f)
    params = re.search(r"\((.*?)\)\s*(->|ensures|requires|$)", head, re.S)
    if params:
        ps = [p.strip() for p in params.group(1).split(",") if p.strip()]
        for i in range(len(ps) - 2):
            runs[(c, ", ".join(ps[i : i + 3]))].add(f)
told("5a facts in the requires of three functions or more", (f"{c}/{t} ({len(fs)})" for (c, t), fs in conjuncts.items() if len(fs) >= 3))
told("5b three parameters together in three functions or more", (f"{c}/{t} ({len(fs)})" for (c, t), fs in runs.items() if len(fs) >= 3))

# 6: structs with arrays and a count of them, or several arrays of one length
told("6 structs of several arrays of one length, or of an array and its count", (
    f"{p.parts[-3]}/{m.group(1)}" for p, t in TEXT.items() for m in re.finditer(r"struct (\w+)[^{;]*\{(.*?)^\}", t, re.S | re.M)
    if len(re.findall(r": \[\w+; \w+\]", m.group(2))) > 1 or (re.search(r": \[\w+; \w+\]", m.group(2)) and re.search(r"\b(count|length|used|start|n): ", m.group(2)))))

# 7: a match on an enum that says which step to run
told("7 match on what is run (Printed, Pool, Form, Way, Plan, ValueOrder, Stage)", (
    f"{c}/{f}" for c, f, _, b in FUNCTIONS if re.search(r"match ", b) and re.search(r"\b(Printed|Pool|Form|Way|Plan|ValueOrder|Stage)::", b)))

# 8: proofs
files = list(ROOT.glob("crates/*/proofs/*/Answers.antt")) + list(ROOT.glob("crates/*/proofs/*/*/Answers.antt"))
print(f"8 Answers.antt files: {len(files)}, lines {sum(len(f.read_text().splitlines()) for f in files)}; answers {sum(len(re.findall(r'^pub .* : goal', f.read_text(), re.M)) for f in files)}")
inv = list(ROOT.glob("crates/*/proofs/**/Invariants.antt"))
print(f"  Invariants.antt files: {len(inv)}, lines {sum(len(f.read_text().splitlines()) for f in inv)}")
print(f"  functions: {len(FUNCTIONS)}, lines of src: {sum(len(t.splitlines()) for t in TEXT.values())}")
