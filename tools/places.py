#!/usr/bin/env python3
"""Lists the places in crates/*/src that an older style of Rattle leaves, point by point, as docs/DESIGN-PASS.md counts them.

    python3 tools/places.py [FOLDER]        FOLDER is a checkout, this one by default

Each line is a candidate: point, letter, file:line, what it is. The page says which of them are places. It reads text, not meaning.
"""
import collections
import difflib
import pathlib
import re
import sys

ROOT = pathlib.Path(sys.argv[1] if len(sys.argv) > 1 else ".")
FILES = sorted((ROOT / "crates").glob("*/src/**/*.rt"))
FN = re.compile(r"^(\s*)(?:pub(?:\([a-z]+\))? )?fn (\w+)")
FLAG = re.compile(r"-> (?:bool|\([^)]*\bbool\b[^)]*\))")
WORD = re.compile(r"[A-Za-z_]\w*|\d\w*|\S")
KEEP = {"fn", "let", "mut", "if", "else", "match", "for", "in", "while", "return", "loop", "as", "true", "false", "Some", "None", "Ok", "Err"}


class Function:
    def __init__(self, file, line, name, text):
        self.file, self.line, self.name, self.text = file, line, name, text
        body = text[text.index("\n" + re.match(r"\s*", text).group() + "{"):] if ("\n" + re.match(r"\s*", text).group() + "{") in text else text[text.index("{"):] if "{" in text else ""
        self.body = body
        head = text[: len(text) - len(body)]
        self.clauses = re.findall(r"^\s*(requires|ensures)(?: (\w+))? \{ (.*) \}\s*$", head, re.M)
        sig = re.split(r"^\s*(?:requires|ensures)", head, maxsplit=1, flags=re.M)[0]
        self.params = re.findall(r"(\w+): ((?:&(?:'\w+ )?(?:mut )?)?[\[\w][\w:<>'\[\]; ]*)", sig)
        self.signature = " ".join(sig.split())


def functions():
    for file in FILES:
        lines = file.read_text().split("\n")
        i = 0
        while i < len(lines):
            m = FN.match(lines[i])
            if m:
                j = i
                while j < len(lines) and not (lines[j] == m.group(1) + "}" or (lines[j].rstrip().endswith(";") and lines[j].startswith(m.group(1) + "    ensures")) or lines[j].rstrip().endswith("}") and j == i):
                    j += 1
                yield Function(file.relative_to(ROOT), i + 1, m.group(2), "\n".join(lines[i : j + 1]))
                i = j
            i += 1


def say(point, letter, where, what):
    COUNT[point + letter] += 1
    print(f"{point}{letter}  {where}  {what}")


COUNT = collections.Counter()
ALL = list(functions())


def lines():
    for file in FILES:
        for n, line in enumerate(file.read_text().split("\n"), 1):
            if not line.lstrip().startswith(("//", "ghost use")):
                yield f"{file.relative_to(ROOT)}:{n}", line.strip()


def shape(f):
    return tuple(t if t in KEEP or not re.match(r"[A-Za-z_0-9]", t) else "x" for t in WORD.findall(f.body))


def clause_fact(text):
    text = re.sub(r"\.(old|new|now|entry|exit)\b", "", text)
    return " ".join(text.split())


for f in ALL:
    if FLAG.search(f.signature):
        say("1", "a", f"{f.file}:{f.line}", "answers a flag: " + f.signature[:110])
# letters that a line is found for by its text alone
LINES = [
    ("1b", r"^(pub(\([a-z]+\))? )?enum "),
    ("1c", r"Result<[^,<>]+, u\d+>|number: u8|Fault::\w+ =>|, \d\d, (Some|None)"),
    ("4a", r"=> (true|false),$"),
    ("3a", r"\bwhile\b"),
    ("3b", r"^for .* in .*\.\."),
    ("3c", r"^[\w.]+ \+= 1;$"),
    ("7b", r"\b(fn\(|dyn |impl Fn|Fn(Mut|Once)?\()"),
    ("6a", r"^(pub(\([a-z]+\))? )?\w+: (Vec|&'a \[|Box<\[)"),
    ("6b", r"^(?!ensures|requires|ghost|(pub(\(crate\))? )?const).*\b(1001|2256|2257|8256|0\.\.32|heap, 32)\b"),
    ("4d", r"derive\("),
]
for where, line in lines():
    for letter, pattern in LINES:
        if re.search(pattern, line):
            say(letter[0], letter[1], where, line)

by_shape = collections.defaultdict(list)
for f in ALL:
    if len(shape(f)) >= 9:
        by_shape[shape(f)].append(f)
for group in by_shape.values():
    if len(group) > 1:
        for f in group:
            say("2", "a", f"{f.file}:{f.line}", f"{f.name}: the same shape as " + ", ".join(g.name for g in group if g is not f)[:90])
done = set()
for i, f in enumerate(ALL):
    for g in ALL[i + 1 :]:
        a, b = shape(f), shape(g)
        if a != b and min(len(a), len(b)) >= 25 and f.file.parts[:2] == g.file.parts[:2] and difflib.SequenceMatcher(None, a, b, autojunk=False).ratio() > 0.8:
            say("2", "b", f"{f.file}:{f.line}", f"{f.name} is like {g.name} ({g.file}:{g.line})")
theorems = [f for f in ALL if f.name.endswith(("_stands", "_stand"))]
for f in theorems:
    if "-> u8" in f.signature:
        say("2", "c", f"{f.file}:{f.line}", f"{f.name}: a theorem with a body that answers a number")

for f in ALL:
    arms = re.findall(r"=> ", f.body)
    if len(arms) >= 3 and re.match(r"\s*\{\s*match", f.body) and re.search(r'=> ("|\d)', f.body):
        say("4", "b", f"{f.file}:{f.line}", f"{f.name}: a conversion written by cases")

facts = collections.defaultdict(set)
for f in ALL:
    for kind, name, text in f.clauses:
        facts[(str(f.file.parts[1]), clause_fact(text))].add(f.name)
for (crate, fact), names in sorted(facts.items()):
    if len(names) >= 3:
        say("5", "a", crate, f"{len(names)} functions: {{ {fact} }}: " + ", ".join(sorted(names)))
pairs = collections.defaultdict(set)
for f in ALL:
    ps = sorted(set(f.params))
    for i in range(len(ps)):
        for j in range(i + 1, len(ps)):
            for k in range(j + 1, len(ps)):
                pairs[(str(f.file.parts[1]), ps[i], ps[j], ps[k])].add(f.name)
groups = collections.defaultdict(set)
for (crate, a, b, c), names in pairs.items():
    if len(names) >= 3:
        groups[(crate, tuple(sorted(names)))] |= {a, b, c}
for (crate, names), ps in sorted(groups.items()):
    say("5", "b", crate, f"{', '.join(p[0] for p in sorted(ps))} together in " + ", ".join(names))
for f in ALL:
    if len(f.params) >= 5:
        say("5", "c", f"{f.file}:{f.line}", f"{f.name} takes {len(f.params)} parameters")
for f in ALL:
    m = re.match(r"\s*\{\s*match (call|taken|record|step|state)\b", f.body) or re.match(r"\s*\{\s*match \(state", f.body)
    if m:
        say("7", "a", f"{f.file}:{f.line}", f"{f.name}: a switch")

for crate in sorted((ROOT / "crates").iterdir()):
    if not (crate / "proofs").is_dir():
        continue
    answers = [a for a in (crate / "proofs").rglob("Answers.antt")]
    n = sum(len(re.findall(r"^pub [\w-]+ : goal\.", a.read_text(), re.M)) for a in answers)
    lemma_files = [p for p in (crate / "proofs").glob("*.antt") if p.name != "Lib.antt"]
    lemmas = sum(len(re.findall(r"^(?:pub |abbrev |unfoldable )*[\w'-]+ : ", p.read_text(), re.M)) for p in lemma_files)
    size = sum(len(p.read_text().split("\n")) - 1 for p in (crate / "proofs").rglob("*.antt"))
    say("8", "a", crate.name, f"answers {n}, lemmas {lemmas}, lines of proofs {size}")
print(" ".join(f"{k}={v}" for k, v in sorted(COUNT.items())))
