#!/usr/bin/env python3
"""Lists the places in crates/*/src/ (and answers in proofs/) that docs/DESIGN-PASS.md counts.

    python3 tools/places.py [COMMIT] [POINT]

COMMIT is looked at through `git show`, without it the working tree. Each line is POINT KIND FILE:LINE WHAT.
"""
import collections
import os
import re
import subprocess
import sys

args = sys.argv[1:]
point = args.pop() if args and re.fullmatch(r"[1-8]", args[-1]) else None
commit = args[0] if args else None


def git(*a):
    return subprocess.run(["git", *a], capture_output=True, text=True, check=True).stdout


def paths():
    if commit:
        return [p for p in git("ls-tree", "-r", "--name-only", commit).splitlines() if p.startswith("crates/")]
    return [p for p in git("ls-files", "crates").splitlines() if os.path.exists(p)]


def read(p):
    return git("show", f"{commit}:{p}") if commit else open(p).read()


src = {p: read(p) for p in paths() if re.search(r"/src/.*\.rt$", p)}
answers = {p: read(p) for p in paths() if re.search(r"/proofs/.*Answers\.antt$", p)}
out = []


def line(s, i):
    return s.count("\n", 0, i) + 1


def library():
    """Path and text of each file that is no test."""
    return [(p, s) for p, s in sorted(src.items()) if "tests" not in p]


def functions():
    """Each function that is no test: path, line, impl or trait, name, parameters, clauses, body."""
    for p, s in library():
        for m in re.finditer(r"(?m)^( *)(?:pub(?:\(crate\))? )?fn (\w+)", s):
            i = m.end()
            depth = 0
            while s[i] != "(" or depth:
                depth += (s[i] == "<") - (s[i] == ">" and s[i - 1] != "-")
                i += 1
            j = i
            depth = 0
            while True:
                depth += (s[j] == "(") - (s[j] == ")")
                j += 1
                if not depth:
                    break
            e = re.compile(rf"(?m)^{m.group(1)}(?:\}}|\{{\}})$").search(s, j)
            b = re.compile(rf"(?m)^{m.group(1)}\{{$|\{{$").search(s, j)
            if not e or not b or b.start() > e.start():
                continue
            owner = re.findall(r"(?m)^(?:pub )?(?:impl|trait)[^{]*", s[: m.start()])
            owner = " ".join(owner[-1].split()) if m.group(1) and owner else ""
            yield p, line(s, m.start()), owner, m.group(2), s[i + 1 : j - 1], s[j : b.start()], s[b.end() : e.start()]


# The points that a pattern finds: point, kind, pattern.
PATTERNS = [
    # 1: own enums of the shape of Option or Result, flags with a value, numbers for kinds or refusals
    (1, "own-enum", r"enum \w+ \{[^}]*\b(?:Absent|Refused\(|Found)[^}]*\}"),
    (1, "flag", r"struct \w+(?:<[^>]*>)? \{[^}]*: bool,[^}]*\}"),
    (1, "refusal-as-option", r"-> Option<(?:Cause|Fault)>"),
    (1, "refusal-beside", r"-> \((?:Self|[A-Z]\w*(?:<[^>]*>)?), Result<\(\), Fault>\)"),
    (1, "fault-beside", r"\bfault: Option<Fault>"),
    (1, "nested-result", r"\) -> Result<(?:Option|Result)<[^;{]*AllocError>"),
    (1, "nested-match", r"Ok\((?:Some|None|Ok|Err)(?:\(\w*\))?\) => (?:Ok|Err|return|None|Some)|=> Ok\(Answer::Refused|=> Ok\(Err\("),
    (1, "hand-written-?", r"else \{\s*return (?:Ok\()?(?:Answer::NotUnderstood|None)\)?;|None => (?:return )?(?:Ok\(None\)|None),|Some\(fault\) => Err\(fault\)"),
    (1, "number", r"\baxis: u8,|-> u8\n"),
    # 3: loops that count an index by hand
    (3, "range", r"for \w+ in [^{]*\.\.[^{]*\{"),
    (3, "counter", r"\b\w+ \+= 1;|\bat = end;"),
    # 4: conversions and the like written by hand
    (4, "refusal-of-axis", r"axis: \w+ as u8"),
    (4, "number-of", r"self as u8|fn number\("),
    (4, "conversion", r"fn (?:parts\(run|run_of\(|command_named\()[^)]*\)[^{]*"),
    (4, "compared-by-number", r"\w+\.get\(\) [!=]= \w+\.get\(\)"),
    (4, "option-by-hand", r"if [^{]*\{\s*(?:Some\([^}]*\)|None)\s*\} else \{\s*(?:Some\([^}]*\)|None)\s*\}|Some\((\w+)\) => Ok\(Some\(\1\)\)"),
    # 6: buffers with a length beside them, parallel arrays
    (6, "array", r"(?m)^ +(?:pub(?:\(crate\))? )?\w+: \[[^\]]*; \d+\],"),
    (6, "search", r"let middle = "),
    # 7: a switch on which step to run
    (7, "switch", r"match (?:question|shape|about|rule|command|kind) \{"),
]

for pt, kind, pattern in PATTERNS:
    for p, s in library():
        for m in re.finditer(pattern, s):
            out.append((pt, kind, f"{p}:{line(s, m.start())}", " ".join(m.group().split())[:90]))

# 2: twins: functions whose bodies are alike but for names, numbers and texts
shapes = collections.defaultdict(list)
for p, n, owner, name, params, clauses, body in functions():
    t = re.sub(r"//.*", "", body)
    toks = re.findall(r"\"[^\"]*\"|\w+|[^\w\s]", t)
    if len(toks) < 12:
        continue
    shape = " ".join("w" if re.match(r"[\w\"]", k) and k not in ("if", "else", "for", "in", "match", "return", "let", "mut") else k for k in toks)
    shapes[shape].append((p, n, name))
for group in shapes.values():
    if len(group) > 1:
        for p, n, name in group:
            out.append((2, "alike", f"{p}:{n}", f"{name} (of {len(group)})"))

# 5: the same requirement, or the same parameters, in three functions or more of a crate
needs = collections.defaultdict(list)
takers = collections.defaultdict(list)
for p, n, owner, name, params, clauses, body in functions():
    crate = p.split("/")[1]
    for r in re.findall(r"requires (?:\w+ )?\{([^\n]*)\}\n", clauses):
        for fact in r.split(" × "):
            fact = re.sub(r"\.(?:now|old|entry)\b", "", fact).strip(" ()")
            needs[crate, fact].append((p, n, name))
    if "impl" in owner and " for " in owner:
        continue
    ps = [" ".join(x.split()) for x in re.split(r",(?![^<(\[]*[>)\]])", params)]
    for x in ps:
        if ":" in x:
            takers[crate, x].append((p, n, name))
for (crate, fact), at in sorted(needs.items()):
    if len(at) > 2:
        for p, n, name in at:
            out.append((5, "fact", f"{p}:{n}", f"{name} requires {fact}"[:100]))
together = collections.defaultdict(list)
for (crate, x), at in sorted(takers.items()):
    if len(at) > 2:
        together[crate, tuple(at)].append(x)
for (crate, at), xs in sorted(together.items()):
    if len(xs) > 1:
        for p, n, name in at:
            out.append((5, "parameters", f"{p}:{n}", f"{name} takes {', '.join(xs)}"))

# 8: answers in proofs
for p, s in sorted(answers.items()):
    for m in re.finditer(r"(?m)^pub (\S+) : goal\.", s):
        out.append((8, "answer", f"{p}:{line(s, m.start())}", m.group(1)))

count = collections.Counter()
for pt, kind, at, what in out:
    if point is None or str(pt) == point:
        count[pt, kind] += 1
        if pt != 8 or point:
            print(pt, kind, at, what)
print()
for (pt, kind), n in sorted(count.items()):
    print(f"point {pt}  {kind:20} {n}")
for pt in sorted({pt for pt, _ in count}):
    print(f"point {pt}: {sum(n for (q, _), n in count.items() if q == pt)}")
