#!/usr/bin/env python3
"""Where the sources under crates/ have a form that a later one may say better.

places.py [-v] [COMMIT]: for each kind of place how many there are, with -v each of them; of the working tree, or of a commit.
It finds candidates by their look and judges nothing: docs/DESIGN-PASS.md says of each what became of it."""
import re, subprocess, sys
from collections import defaultdict


def sources(commit):
    if commit:
        names = subprocess.run(["git", "ls-tree", "-r", "--name-only", commit, "crates"], capture_output=True, text=True, check=True).stdout.split()
    else:
        names = subprocess.run(["git", "ls-files", "crates"], capture_output=True, text=True, check=True).stdout.split()
    for name in names:
        if re.search(r"/(src/.*\.rt|proofs/.*\.antt)$", name):
            if commit:
                yield name, subprocess.run(["git", "show", f"{commit}:{name}"], capture_output=True, text=True, check=True).stdout
            else:
                yield name, open(name).read()


FN = re.compile(r"^( *)(?:pub(?:\([a-z]+\))? )?(?:const )?fn (\w+)", re.M)


def functions(text):
    """name, line, whole text of each function"""
    for m in FN.finditer(text):
        end = re.search(r"^" + m.group(1) + r"\}$", text[m.start():], re.M)
        semi = re.search(r"\};$|\);$", text[m.start():], re.M)
        stop = end.end() if end else (semi.end() if semi else 0)
        yield m.group(2), text.count("\n", 0, m.start()) + 1, text[m.start():m.start() + stop]


def body(fn):
    m = re.search(r"^ *\{$", fn, re.M)
    return fn[m.start():] if m else ""


def shape(code):
    keep = {"if", "else", "for", "while", "loop", "return", "match", "let", "mut", "in", "break", "Some", "None", "Ok", "Err"}
    code = re.sub(r"//.*", "", code)
    code = re.sub(r'b?"[^"]*"|b?\'[^\']+\'', "S", code)
    return re.sub(r"\w+", lambda m: m.group(0) if m.group(0) in keep else "x", re.sub(r"\s+", " ", code))


def main():
    args = [a for a in sys.argv[1:] if a != "-v"]
    verbose = "-v" in sys.argv
    files = list(sources(args[0] if args else None))
    found = defaultdict(list)
    shapes, clauses, runs = defaultdict(list), defaultdict(set), defaultdict(set)
    for name, text in files:
        crate = name.split("/")[1]
        if name.endswith(".antt"):
            short = name.split("/", 2)[2]
            if short.endswith("Answers.antt"):
                entries = re.findall(r"^([a-z]\S*) [a-z_ ]*=", text, re.M)
                found["8 answers"] += [f"{crate}/{short}: {e}" for e in entries]
            elif not short.endswith(("Invariants.antt", "Lib.antt", "Proof.antt")):
                found["8 lemmas of one's own"] += [f"{crate}/{short}: {e}" for e in re.findall(r"^ *(?:pub |abbrev )*([a-z]\S*) : ", text, re.M)]
            continue
        src = name.replace("crates/", "").replace("/src/", "/")
        lines = text.split("\n")
        for i, line in enumerate(lines, 1):
            at = f"{src}:{i}: {line.strip()}"
            if re.match(r"\s*(pub(\(crate\))? )?enum ", line):
                found["1 enums"].append(at)
            if re.search(r"Err\(\w+\) => (return )?Err\(|Err\(_\) =>|let Ok\(.*\) = |Some\(\w+\) => Some\(|Some\(_\) => \{\}|None => (return )?None|(\w+) => return \1,", line):
                found["1 outcomes handed on by hand"].append(at)
            if re.search(r"\b(place|number): u(8|32|64|size)\b|\b\w+: bool,?$", line):
                found["1 numbers and flags in fields and parameters"].append(at)
            if re.match(r"\s*(while|loop|for)\b.*\{$", line):
                kind = "3 loops over a number or with a counter" if re.search(r"\bwhile |\.\.", line) and "iter()" not in line else "3 other loops"
                found[kind].append(at)
            if re.match(r"\s*#\[derive", line) and "PartialEq" not in line:
                found["4 types without derived equality"].append(f"{src}:{i}: {lines[i].strip()}")
            if re.search(r"\[[0-9a-zA-Z_]+; [0-9A-Z_]+\]", line):
                found["6 arrays of a fixed size"].append(at)
            if re.match(r"\s*(pub )?(len|end|from|count|digits|next|to): (usize|u32),?$", line):
                found["6 lengths and places beside a slice"].append(at)
        for fn, at, whole in functions(text):
            code = body(whole)
            if code.count("\n") >= 3:
                shapes[shape(code)].append(f"{src}:{at} {fn}")
            if re.search(r"-> bool", whole) and re.search(r"=> (true|false)", code):
                found["4 comparisons by a match"].append(f"{src}:{at} {fn}")
            arms = re.findall(r"^\s*[A-Z]\w*(?:::\w+)?(?:\(.*\)|\s*\{.*\})? => ([a-z_]+)\(.*\),?$", code, re.M)
            if len(set(arms)) >= 3:
                found["7 a match that calls another function in each of three arms"].append(f"{src}:{at} {fn}")
            for c in re.findall(r"^\s*requires (?:\w+ )?\{ (.*) \}$", whole, re.M):
                clauses[(crate, c)].add(f"{src}:{at} {fn}")
            head = whole[:whole.find("\n{")] if "\n{" in whole else whole
            m = re.search(r"fn \w+[^(]*\((.*?)\)\s*(->|requires|ensures|\{|;|$)", head, re.S)
            params = [p.strip() for p in re.split(r",\s*", m.group(1))] if m else []
            params = [p for p in params if ":" in p]
            for k in range(len(params) - 2):
                runs[tuple(params[k:k + 3])].add(f"{src}:{at} {fn}")
            if re.search(r"\bprint!|println|eprint", code):
                found["4 functions that print"].append(f"{src}:{at} {fn}")
    for s, fns in shapes.items():
        if len(fns) > 1:
            found["2 functions of the same shape"].append(", ".join(fns))
    for (crate, c), fns in sorted(clauses.items()):
        if len(fns) >= 3:
            found["5 a fact in three contracts or more"].append(f"{crate}: {c} ({len(fns)} functions)")
    for r, fns in sorted(runs.items()):
        if len(fns) >= 3:
            found["5 three parameters that stand together in three functions or more"].append(f"{', '.join(r)} ({len(fns)} functions)")
    for kind in sorted(found):
        print(f"{len(found[kind]):5} {kind}")
        if verbose:
            for at in found[kind]:
                print(f"        {at}")


main()
