#!/usr/bin/env python3
"""Lists the places of the sources that have a form for which today's Rattle may have a better one.

    tools/places.py [COMMIT] [--brief]

reads crates/*/src of the commit (HEAD if none is given), tests left out, and prints for each of
eight points the places found and their count. docs/DESIGN-PASS.md says what became of each.
"""
import collections
import re
import subprocess
import sys

COMMIT = next((a for a in sys.argv[1:] if not a.startswith("-")), "HEAD")
BRIEF = "--brief" in sys.argv


def git(*args):
    return subprocess.run(["git", *args], capture_output=True, text=True, check=True).stdout


def sources():
    for path in git("ls-tree", "-r", "--name-only", COMMIT).split():
        if re.match(r"crates/(?!\w*_tests/)\w+/src/.*\.rt$", path):
            yield path, git("show", f"{COMMIT}:{path}")


def functions(path, text):
    """Each function's name, parameters, clauses and body."""
    lines = text.split("\n")
    for at, line in enumerate(lines):
        head = re.match(r"( *)(pub(\(crate\))? )?fn (\w+)", line)
        if not head:
            continue
        end = at
        while not re.match(head[1] + r"(\{|\})$|.*[;{]$", lines[end]) or lines[end].endswith("{ "):
            end += 1
        whole = "\n".join(lines[at : end + 1])
        while lines[end] != head[1] + "}" and not lines[end].endswith(";"):
            end += 1
        body = "\n".join(lines[at : end + 1])[len(whole) :]
        clauses = re.findall(r"^ *(?:requires|ensures)[^{]*\{ (.*) \}[,;]?$", whole, re.M)
        params = re.search(r"\((.*?)\)(?: ->|\n| \{|;|$)", whole, re.S)
        names = [re.sub(r"\s+", " ", p).strip() for p in (params[1] if params else "").split(",")]
        yield f"{path}:{at + 1} {head[4]}", [p for p in names if ":" in p], clauses, body


def facts(clause):
    """The facts that a clause joins."""
    depth, start, parts = 0, 0, []
    for i, c in enumerate(clause):
        depth += (c in "([{") - (c in ")]}")
        if depth == 0 and clause.startswith(" × ", i):
            parts.append(clause[start:i])
            start = i + 3
    parts.append(clause[start:])
    for part in parts:
        part = part.strip()
        if part.startswith("(") and part.endswith(")") and len(parts) > 1:
            yield from facts(part[1:-1])
        else:
            yield from (f.strip() for f in re.split(r" → ", part)) if "λ" not in part else [part]


def shape(body):
    """A body with its names and numbers left out."""
    body = re.sub(r"//.*", "", body)
    body = re.sub(r"b?'(\\?.)'|b?\"[^\"]*\"", "0", body)
    return re.sub(r"\b[0-9][0-9a-zA-Z_]*\b", "0", re.sub(r"\b[a-zA-Z_]\w*\b", "a", body))


def matching(text, pattern):
    for path, source in text:
        for at, line in enumerate(source.split("\n"), 1):
            if re.search(pattern, line.split("//")[0]):
                yield f"{path}:{at} {line.strip()}"


def tell(title, places):
    places = list(places)
    print(f"{title}: {len(places)}")
    if not BRIEF:
        for place in places:
            print("   ", place)


files = list(sources())
all_functions = [f for path, text in files for f in functions(path, text)]

tell("1 own enums", matching(files, r"^(pub(\(crate\))? )?enum "))
tell("1 a flag beside a value, a cause in an Option, a count for a kind",
     matching(files, r"\), bool\)|pub \w+: bool,|Option<Cause>|Result<usize, AllocError>$"))

same = collections.defaultdict(list)
for name, params, clauses, body in all_functions:
    key = re.sub(r"\s+", "", shape(body))
    if key.count("a") >= 8:
        same[key].append(name)
tell("2 functions of one shape", (" ~ ".join(names) for names in same.values() if len(names) > 1))
calls = [(n, re.fullmatch(r"\s*\{?\s*(?:\w+(?:::|\.))?(\w+)\(([^()]*)\)\s*\}\s*", b.split("\n    ensures")[0]))
         for n, p, c, b in all_functions]
private = {n.split(" ")[1] for n, p, c, b in all_functions}
tell("2 a function that only calls another of its crate",
     (f"{n} -> {m[1]}" for n, m in calls if m and m[1] in private))
tell("3 loops by a condition or a count",
     matching(files, r"\bwhile [^l]|\bfor \w+ in [0-9a-z_]+\.\.|\.enumerate\(\)"))
tell("3 loops that test each item", (n for n, p, c, b in all_functions
     if re.search(r"for \w+ in [^{]*\{\s*if [^{]*\{\s*return (true|false|i|Some)", b)))
tell("4 equality and order by hand", matching(files, r"^impl\b.* (PartialEq|Eq|PartialOrd|Ord|Key) for"))
tell("4 conversion by hand", matching(files, r"pub fn (from_\w+|to_\w+|code|number)\((self|\w+: (u8|Word))\)"))
tell("4 printing by hand", matching(files, r"fn (four|digits|numbered|memory|symbol|spelled|reject_line|sign_text|(location|word|symbol|memory)_text)\b"))
stand = collections.defaultdict(set)
pairs = collections.defaultdict(set)
for name, params, clauses, body in all_functions:
    for clause in clauses:
        for fact in facts(clause):
            stand[re.sub(r"\.(now|old|new|entry)\b", "", fact)].add(name.split(" ")[1])
    for i, p in enumerate(params):
        for q in params[i + 1 :]:
            pairs[p, q].add(name)
tell("5 a fact in three functions or more",
     (f"{len(v)} {k}" for k, v in sorted(stand.items(), key=lambda t: -len(t[1])) if len(v) > 2))
tell("5 parameters that travel together in three functions or more",
     (f"{len(v)} {k[0]}, {k[1]}" for k, v in sorted(pairs.items(), key=lambda t: -len(t[1])) if len(v) > 2))
tell("6 places of a buffer by number, searches by hand",
     matching(files, r"let mut (low|high)\b|\w\[[0-9]+\] = |\[k( \+ [0-9])?\]|\[5 \* i"))
tell("7 switches and calls by dyn or Fn", matching(files, r"match [\w.]*\b(operation|op|found|shift|kind)\b|\bdyn |Fn(Once|Mut)?\("))
answers = [p for p in git("ls-tree", "-r", "--name-only", COMMIT).split() if re.search(r"/proofs/.*\.antt$", p)]
lines = sum(git("show", f"{COMMIT}:{p}").count("\n") for p in answers)
print(f"8 proofs: {len(answers)} files, {lines} lines, "
      f"{sum(p.endswith('Answers.antt') for p in answers)} of them answers")
