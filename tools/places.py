#!/usr/bin/env python3
"""Counts the places in crates/*/src that older Rattle asked for and today's does better.

    python3 tools/places.py [COMMIT]     counts (the working tree where no commit is named)
    python3 tools/places.py -v [COMMIT]  the places too
"""
import collections
import re
import subprocess
import sys

verbose = "-v" in sys.argv
commits = [a for a in sys.argv[1:] if a != "-v"]


def git(*args):
    return subprocess.run(["git", *args], capture_output=True, text=True, check=True).stdout


def files():
    if commits:
        names = git("ls-tree", "-r", "--name-only", commits[0]).split("\n")
        return {n: git("show", commits[0] + ":" + n) for n in names if re.match(r"crates/[^/]+/src/.*\.rt$", n)}
    names = git("ls-files", "-co", "--exclude-standard").split("\n")
    return {n: open(n).read() for n in names if re.match(r"crates/[^/]+/src/.*\.rt$", n)}


FILES = files()
COUNTS = {}


def say(point, found):
    COUNTS[point] = len(found)
    print(f"{len(found):4}  {point}")
    if verbose:
        for place in found:
            print("        ", place)


def bare(text):
    return re.sub(r"//[^\n]*", lambda m: " " * len(m.group()), text)


def grep(point, *patterns):
    found = {}
    for name, text in FILES.items():
        plain = bare(text)
        for pattern in patterns:
            for m in re.finditer(pattern, plain, re.M):
                start = m.start() + len(m.group()) - len(m.group().lstrip())
                found[name, start] = f"{name}:{plain.count(chr(10), 0, start) + 1}: {' '.join(m.group().split())[:110]}"
    say(point, [found[k] for k in sorted(found)])


def functions():
    for name, text in FILES.items():
        plain = bare(text)
        for m in re.finditer(r"^( *)(?:pub(?:\(crate\))? )?fn (\w+)", plain, re.M):
            end = re.compile("^" + m.group(1) + r"\}|;\n(?=\n|\})", re.M).search(plain, m.end())
            yield name, m.group(2), plain.count("\n", 0, m.start()) + 1, plain[m.start() : end.end() if end else len(plain)]


FUNCTIONS = list(functions())


def head_of(text):
    depth = 0
    for i, c in enumerate(text):
        if c == "(":
            depth += 1
        elif c == ")":
            depth -= 1
            if depth == 0:
                return text[text.index("(") + 1 : i]
    return ""


def clauses(kind, text):
    return re.findall(r"^\s*" + kind + r"(?: \w+)? \{ (.*) \}$", text, re.M)


print("1  numbers for kinds and refusals, own enums like Option or Result")
grep("refusal numbers in code", r"\bErr\(\d+\)", r"Fault::new\(\s*\d+", r"\bdemand\((?!holds)", r"\brequire\([^;]*?,\s*\d\d,?\s*\)", r"^\s*2[1-7],$", r"\(2[1-7], ")
grep("a refusal that is a bare number", r"Result<[^\n]*, u8>", r"_rule\([^)]*\) -> Option<u8>", r"refusal\([^)]*\) -> Option<u8>")
grep("an enum that is a Result by another name", r"enum Report \{[^}]*\}")

print("2  twins")
shapes = collections.defaultdict(list)
KEEP = {"if", "else", "match", "let", "for", "in", "return", "while", "self", "Some", "None", "Ok", "Err", "true", "false", "as", "mut"}
for name, fn, line, text in FUNCTIONS:
    body = text.split("\n{", 1)[-1] if "\n{" in text else text.split("\n    {", 1)[-1]
    if "ensures" not in text or len(body) < 30:
        continue
    shape = re.sub(r"\w+", lambda m: m.group() if m.group() in KEEP else "_", body)
    shapes[re.sub(r"\s+", "", shape)].append(f"{name}:{line} {fn}")
twins = [" = ".join(v) for v in shapes.values() if len(v) > 1]
say("groups of functions of one shape", sorted(twins))
say("functions in them", [f for v in shapes.values() if len(v) > 1 for f in v])
consts = collections.defaultdict(list)
for name, text in FILES.items():
    for m in re.finditer(r"^(?:pub )?const (\w+): [^=]*=\s*([^;]*);", bare(text), re.M):
        value = re.sub(r"\s+", "", m.group(2))
        if len(value) > 8 and not value.startswith(("b\"", "&[")):
            consts[value].append(f"{name} {m.group(1)}")
say("constants that stand twice or more", [" = ".join(v) for v in consts.values() if len(v) > 1])

print("3  loops by hand")
grep("`for` over a range of places", r"for \w+ in [^\n{]*\.\.[^\n{]*\{")
grep("`while`", r"\bwhile ")
grep("`for` over items that answers, counts or sums by hand", r"for [^\n]* in (?![^\n{]*\.\.)[^\n]*\{(?=\n(?:[^\n]*\n){0,4}?[^\n]*(?:return (?:false|Some)|\+=))")
grep("a `match` that the library has a method for", r"Some\((\w+)\) => \1,\s*None =>", r"Ok\((\w+)\) => Some\(\1\),\s*Err", r"Some\((\w+)\) => Ok\(\1\),", r"Ok\((\w+)\) => \1,\s*Err", r"Ok\((\w+)\) => Ok\(\w+::\w+\(\1\)\),")

print("4  equality, conversion and printing by hand")
grep("`matches!`", r"matches!\(")
grep("a test of an enum's case as a method", r"fn (?:is_\w+|holds_number)\((?:&?self)\)")
grep("a conversion that is not From", r"fn (?:of\((?:byte|number)|pack|unpack)")
grep("a comparison part by part", r"\((Status::\w+), \1\) =>", r"\w+ == \w+ && \w+ == \w+(?=,\n| *\n)")

print("5  facts and parameters that travel together")
facts = collections.defaultdict(list)
for name, fn, line, text in FUNCTIONS:
    for clause in clauses("requires", text):
        for fact in re.split(r" × ", clause):
            fact = re.sub(r"[()]", "", fact)
            fact = re.sub(r"\b(s|n|f|i)\b(?= ≤ 255)", "_", fact)
            facts[(name.split("/")[1], re.sub(r"\s+", " ", fact))].append(f"{name}:{line} {fn}")
many = {k: sorted(set(v)) for k, v in facts.items() if len(set(v)) >= 3}
say("facts in the `requires` of three functions or more", [f"{k[0]}: {k[1]}  ({len(v)})" for k, v in sorted(many.items())])
say("functions that state one of them", sorted({f for v in many.values() for f in v}))
grep("clauses that join facts by ×", r"^\s*(?:requires|ensures)[^\n]* × [^\n]*")
groups = collections.defaultdict(set)
for name, fn, line, text in FUNCTIONS:
    ps = [re.sub(r"&(?:'\w+ )?(?:mut )?|<[^>]*>", "", p).strip() for p in re.split(r",\s*(?![^<]*>)", head_of(text)) if ":" in p]
    ps = [p for p in ps if not re.search(r": (u8|u16|u32|usize|u64|bool)$", p)]
    for i, a in enumerate(ps):
        for b in ps[i + 1 :]:
            groups[(name.split("/")[1], a, b)].add(f"{name}:{line} {fn}")
say("pairs of parameters in three functions or more", [f"{k[0]}: {k[1]}, {k[2]}  ({len(v)})" for k, v in sorted(groups.items()) if len(v) >= 3])

print("6  buffers with a length beside them")
grep("a struct with an array or a slice and a count", r"struct \w+[^{]*\{(?=[^}]*(?:\[[^\]]*; *\w+\]|&'a mut \[))(?=[^}]*: usize)[^}]*\}")

print("7  switches on which step to run")
grep("a `match` on a record or a test", r"match (?:said|test) \{", r"match \*op \{")

print("8  proofs")
if not commits:
    answers = [n for n in git("ls-files", "-co", "--exclude-standard", "crates").split("\n") if n.endswith(".antt") and "/proofs/" in n]
    texts = {n: open(n).read() for n in answers}
else:
    answers = [n for n in git("ls-tree", "-r", "--name-only", commits[0]).split("\n") if re.match(r"crates/.*/proofs/.*\.antt$", n)]
    texts = {n: git("show", commits[0] + ":" + n) for n in answers}
plain = re.compile(r"^\s*(?:\w[\w-]* )?[\w-]+ c = search rules$", re.M)
say("files of answers", [n for n in answers if n.endswith("Answers.antt")])
say("answers that only say `search rules`", [f"{n}: {m.group().strip()}" for n, t in texts.items() for m in re.finditer(r"^[\w-]+ c =\s*search rules\s*$", t, re.M)])
say("lines of proofs", [0] * sum(t.count("\n") for t in texts.values()))
