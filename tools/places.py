#!/usr/bin/env python3
"""Lists the places in crates/*/src that an older way of writing leaves behind, point by point.

    tools/places.py [COMMIT]    the tree, or a commit; -c counts alone

What it prints is what a reader has to judge: a place that matches need not be one to change.
The points are those of docs/DESIGN-PASS.md."""
import collections
import re
import subprocess
import sys

args = [a for a in sys.argv[1:] if a != "-c"]
count_only = "-c" in sys.argv
commit = args[0] if args else None


def run(*cmd):
    return subprocess.run(cmd, capture_output=True, text=True, check=True).stdout


def sources(pattern):
    pattern = re.compile(pattern)
    if commit:
        names = run("git", "ls-tree", "-r", "--name-only", commit).split()
    else:
        names = run("git", "ls-files", "-co", "--exclude-standard").split()
    for name in sorted(filter(pattern.match, names)):
        if commit:
            yield name, run("git", "show", f"{commit}:{name}").split("\n")
        else:
            try:
                yield name, open(name).read().split("\n")
            except FileNotFoundError:
                pass


FILES = list(sources(r"crates/[^/]+/src/.*\.rt$"))
PROOFS = list(sources(r"crates/[^/]+/(specs|proofs)/.*\.antt$"))

# One pattern for each kind of place, by point.
LINES = {
    1: [
        ("an enum of its own", r"^\s*(pub(\(crate\))? )?enum \w+"),
        ("a number or a default for 'none'", r"else \{ (0|NONE|EMPTY|255) \}|None => (0|false|true|Ok\(\(\)\))|^\s+(0|NONE|EMPTY)$|return 0;|'none'"),
        ("numbers for outcomes or kinds", r"100 \+|Ok\(_?\(?\)?\) => \(?0|=> n == \d|match (n|kind|flag) \{|-> \(u8, u64"),
        ("a test of an Option and its return", r"is_some\(\) \{$"),
    ],
    3: [
        ("a range over an index", r"for \w+ in 0\.\."),
        ("a while that counts", r"while \w+ <"),
        ("a search loop", r"^\s+return (true|false);$"),
        ("a loop that takes the most or least", r"if .* > (most|best) \{"),
    ],
    4: [
        ("a comparison by hand", r"impl PartialEq|impl PartialOrd|impl Ord"),
        ("a conversion by hand", r"fn \w+\(\w+: (Result<|Standing|\[u64; 8\])|-> Reply$|-> RuleNumbers \{"),
        ("an outcome passed on arm by arm", r"Err\(\w+\) => Err\(\w+\)|Ok\(\(\)\) => (Ok\(\(\)\)|\{\})|Some\(\w+\) => Some\(\w+\)|=> Some\(\w+\)$"),
        ("printing by hand", r"b'0' \+|fn tell_|fn state_name|fn put_"),
        ("smaller or greater by hand", r"if .* < .* \{ .* \} else \{ \d+ \}|let \w+ = if .* < \d+ \{$"),
    ],
    6: [
        ("an array of fixed length", r"\[\w+(\([^)]*\))?; ?(\w+)\]"),
        ("an index that is tested first", r"if \(?\w+( as usize)?\)? < \w+(\.\w+)*\.len\(\)|if \w+ < 9 |if place < \d|\.len\(\) == 0|\.len\(\) > 0"),
    ],
    7: [("a parameter that picks a step", r"\b(kind: Kind|class: Class)\b")],
}
SIGNATURE = re.compile(r"\bfn (\w+)(<[^(]*>)?\(([^{;]*?)\)\s*(->[^{;]*?)?\s*(?=requires|ensures|\{|;)", re.S)
CLAUSE = re.compile(r"^\s+(?:requires|ensures)(?: \w+)? (\{.*\})$")
PARAMETER = re.compile(r"(\w+): ([^,]+(?:<[^>]*>)?)")


def show(point, kind, places):
    print(f"point {point}: {kind}: {len(places)}")
    if not count_only:
        for place in places:
            print("   ", place)


def by_line():
    for point in sorted(LINES):
        for kind, pattern in LINES[point]:
            found = re.compile(pattern)
            show(point, kind, [f"{n}:{i}: {l.strip()}" for n, ls in FILES for i, l in enumerate(ls, 1)
                               if found.search(l) and not l.strip().startswith("//")])


def twins():
    """Constants of one value, functions of one name, and functions whose bodies differ in few words."""
    consts, names, bodies = (collections.defaultdict(list) for _ in range(3))
    for n, ls in FILES:
        text = "\n".join(ls)
        for m in re.finditer(r"const \w+: ([^=]+) = ([^;]+);", text):
            value = re.sub(r"[\s_]", "", m.group(2))
            if len(value) > 2:
                consts[m.group(1) + value].append(f"{n}: {m.group(0).split('=')[0].strip()}")
        for m in re.finditer(r"^(?:    )?(?:pub(?:\(crate\))? )?fn (\w+)[^{;]*?(?:requires|ensures|\{)", text, re.S | re.M):
            names[m.group(1)].append(n)
        for m in re.finditer(r"^( *)(?:pub(?:\(crate\))? )?fn (\w+).*?\n\1\}\n", text, re.S | re.M):
            body = re.split(r"\n *\{\n", m.group(0), maxsplit=1)[-1]
            shape = re.sub(r"\b[a-z_]\w*\b", "x", re.sub(r"\s+", " ", body))
            if len(shape) > 40:
                bodies[shape].append(f"{n}: {m.group(2)}")
    show(2, "constants of one value", [" = ".join(v) for v in consts.values() if len(v) > 1])
    show(2, "functions of one shape", [", ".join(v) for v in bodies.values() if len(v) > 1])


def together():
    """Pairs of parameters, by name and type, that stand in three or more functions of a crate, and in
    most where one of them stands; and clauses that stand in three or more."""
    users, clauses = collections.defaultdict(set), collections.defaultdict(set)
    for n, ls in FILES:
        crate = n.split("/")[1]
        for m in SIGNATURE.finditer("\n".join(ls)):
            for a, b in PARAMETER.findall(m.group(3)):
                users[crate, f"{a}: {' '.join(b.split())}"].add(m.group(1))
        for i, l in enumerate(ls, 1):
            m = CLAUSE.match(l)
            if m:
                clauses[crate, m.group(1)].add(f"{n}:{i}")
    pairs = []
    for (c, a), fs in sorted(users.items()):
        for (d, b), gs in sorted(users.items()):
            both = fs & gs
            if c == d and a < b and len(both) > 2 and 3 * len(both) >= 2 * len(fs | gs):
                pairs.append(f"{c}: {a}, {b} ({len(both)} of {len(fs | gs)}: {', '.join(sorted(both))})")
    show(5, "pairs of parameters that mostly stand together, in three functions or more", pairs)
    show(5, "clauses in three functions or more",
         [f"{c}: {t} ({len(f)})" for (c, t), f in sorted(clauses.items()) if len(f) > 2])


def proofs():
    lines = {n: len(ls) - 1 for n, ls in PROOFS}
    answers = {n: sum(l.startswith("pub ") for l in ls) for n, ls in PROOFS if n.endswith("/Answers.antt")}
    own = re.compile(r"crates/[^/]+/(specs|proofs)/[^/]+$")
    print(f"point 8: answers: {sum(answers.values())}")
    print(f"point 8: lines of definitions and lemmas: {sum(k for n, k in lines.items() if own.match(n))}")
    print(f"point 8: lines of answers and invariants: {sum(k for n, k in lines.items() if not own.match(n))}")


by_line()
twins()
together()
proofs()
