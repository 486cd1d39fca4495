#!/usr/bin/env python3
"""Respells the names that this repository's specs/ and proofs/ declare: words in snake case, types in camel case.

Run once at the top, behind port.py. Functions of src/, strings, inputs and outputs keep their names, and so do names
that Rattle makes (goals and steps) and those of the library. With --list it prints what it would rename, and with it the
names that fall together with another of the repository.
"""
import collections
import glob
import re
import sys

# Names that would fall together with another that the same files use.
OVERRIDES = {
    "after-add": "after_add_keeps",
    "after-exchange": "after_exchange_keeps",
    "bit-or": "bit_of_or",
    "cell-at": "cell_at_is",
    "entry-at": "entry_at_is",
    "has-object": "slot_has_object",
    "object-at": "object_at_is",
    "param-scope": "param_scope_is",
}

SEPARATORS = r"\s(){}.;,⌜⌝\[\]|↦@\"`?"
TOKEN = re.compile(r"[^" + SEPARATORS + r"]+")
DECLARED = re.compile(
    r"^(\s*)((?:pub |abbrev |unfoldable |data |record |axiom )*)([^\s(){}:;=λ\-|][^:(){}=λ]*?)\s*(:|\(|\{|=|where)"
)


def is_old(name):
    return bool(
        re.search(r"\w-\w", name)
        or re.match(r"^[a-z][a-z0-9_]*[A-Z]", name)
        or re.match(r"^[A-Z]\w*_\w", name)
    )


def respelled(name):
    if name in OVERRIDES:
        return OVERRIDES[name]
    parts = [p for p in re.split(r"[-_]", name) if p]
    if name[0].isupper():
        return "".join(p[0].upper() + p[1:] for p in parts)
    words = []
    for part in parts:
        words += re.sub(r"([a-z0-9])([A-Z])", r"\1 \2", part).split(" ")
    return "_".join(w.lower() for w in words)


def code(line):
    return re.sub(r"(^|\s)--.*", "", line)


def declared_names(files):
    """Names that lemmas, definitions and constructors have, and the fields of records."""
    names, fields = set(), set()
    for path in files:
        answers = re.search(r"/(Answers|Invariants|Choices)\.antt$", path)
        lines = [code(line.rstrip("\n")) for line in open(path, encoding="utf-8")]
        in_record, indent = False, 0
        for line in lines:
            if not line.strip():
                continue
            depth = len(line) - len(line.lstrip())
            if re.match(r"^\s*(pub )?record\s.*where\s*$", line):
                in_record, indent = True, depth
            elif in_record and depth <= indent:
                in_record = False
            found = DECLARED.match(line)
            if not found:
                continue
            if answers and re.search(r":\s*goal\.", line):
                continue
            local = re.match(r"^\s*let ([^\s:=(){}]+) [:=]", line)
            if local and is_old(local.group(1)):
                names.add(local.group(1))
            if line.lstrip().startswith(("use ", "ghost use ", "module ", "let ", "in ", "λ ", "elim ", "unfolding ")):
                continue
            for name in found.group(3).split():
                if is_old(name):
                    names.add(name)
                    if in_record and depth > indent:
                        fields.add(name)
    return names, fields


def goal_names(files):
    """Names of goals, which Rattle makes."""
    made = set()
    for path in files:
        text = open(path, encoding="utf-8").read()
        made |= set(re.findall(r"goal\.([^\s(){}.;,]+)", text))
    return made


def own_crates():
    return {line.split(":")[0].strip() for line in open("crates.txt", encoding="utf-8") if ":" in line and not line.startswith("#")}


def borrowed(text, own):
    """Names that a file imports from elsewhere than this repository's crates: these keep their spelling there."""
    found = set()
    for module, items in re.findall(r"use ([\w.+]+)\.\{([^}]*)\}", text):
        parts = module.split(".")
        if not (parts[0] == "Rattle" and parts[1] in own):
            found |= {word for item in items.split(",") for word in item.split()}
    return found


def rename_line(line, names, fields):
    out, last = [], 0
    for found in TOKEN.finditer(line):
        word = found.group()
        quoted = word.strip("'") if word.strip("'") in names else word
        before = line[: found.start()]
        if quoted not in names:
            continue
        if before.endswith("."):
            head = re.search(r"([^\s(){};,]*)\.$", before).group(1).split(".")[-1]
            module = head[:1].isupper() and not re.match(r"^[A-Z]$", head)
            alias = re.match(r"^[A-Z]$", head) and quoted not in fields
            if not (module or alias or quoted in fields):
                continue
            if head == "goal":
                continue
        out.append(line[last : found.start()])
        out.append(word.replace(quoted, respelled(quoted)))
        last = found.end()
    out.append(line[last:])
    return "".join(out)


def rename_rust(line, names, fields):
    """Only ghost lines and clauses: a name in code has no hyphen."""
    ghost = re.match(r"^\s*(ghost|requires|ensures|//)", line)
    if ghost:
        return rename_line(line, names, fields)
    return line


def main():
    specs = sorted(glob.glob("crates/*/specs/**/*.antt", recursive=True))
    proofs = sorted(glob.glob("crates/*/proofs/**/*.antt", recursive=True))
    names, fields = declared_names(specs + proofs)
    names -= goal_names(proofs)
    if "--list" in sys.argv:
        everything = collections.Counter()
        for path in specs + proofs + glob.glob("crates/*/src/**/*.rt", recursive=True):
            for line in open(path, encoding="utf-8"):
                everything.update(TOKEN.findall(line))
        targets = collections.defaultdict(list)
        for name in sorted(names):
            targets[respelled(name)].append(name)
        for new, olds in sorted(targets.items()):
            clash = []
            if len(olds) > 1:
                clash.append("two of them")
            if everything[new]:
                clash.append("stands %d times" % everything[new])
            print("%-30s %s %s" % (new, " ".join(olds), "!! " + ", ".join(clash) if clash else ""))
        return
    own = own_crates()
    sources = glob.glob("crates/*/src/**/*.rt", recursive=True)
    others = glob.glob("crates/*/must-fail/*.edit") + glob.glob("docs/*.md") + ["README.md"]
    for path in specs + proofs + sources + others:
        text = open(path, encoding="utf-8").read()
        here = names - borrowed(text, own)
        respell = rename_rust if path.endswith(".rt") else rename_line
        done = "\n".join(respell(line, here, fields & here) for line in text.split("\n"))
        open(path, "w", encoding="utf-8").write(done)


main()
