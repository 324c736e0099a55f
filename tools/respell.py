#!/usr/bin/env python3
"""Brings the repository's own names in specs/, proofs/, contracts and must-fail edits to the spelling of this Rattle, once, after the kit's port.py.

usage: python3 tools/respell.py [--check]        at the top of the repository

Definitions, fields and constructors: a word in snake case, a type in camel case, so step-at is step_at and Any-order is AnyOrder. A lemma keeps the
dashes between the words of its name, and the words in it are respelled: step-at-same is step_at-same. Names that the check makes out of the code's
(behind 'goal.' and 'c.' in a function's own proof files) get the code's spelling: span-at-from is span_at-from. Functions of src/, strings, inputs and
outputs stay. It goes by text, and says which names fall together. --check writes nothing.
"""
import collections
import os
import re
import sys

DASHED = r"(?<![\w'.·-])[A-Za-z][\w']*(?:-[\w']+)+"
TOKEN = re.compile(r"[A-Za-z_][\w']*(?:-[\w']+)*")
COMMENT = re.compile(r"--[^\n]*")
# Definitions that would get the name of a function of src/ get another.
OTHERWISE = {
    word: word.replace("-", "_") + "_spec"
    for word in (
        "begins-field can-step cell-kind cells-line else-lines head-lines is-act is-atom is-cells is-else is-operator is-own join-for kind-of lane-on "
        "leaf-of line-end must-end must-loop phase-of plan-of put-row stance-of text-line touch-of waiting-of with-expr with-lanes within-line"
    ).split()
} | {"read-field": "read-field", "count-end": "count-end", "named-line": "named-line"}
# As fields of records these keep the plain spelling: behind a dot, at their declaration, and in a record.
FIELDS = {"cells-line", "is-own", "can-step"}
# Words that the check puts into the names of goals and places.
MADE = set(
    "in_err in_ok in_default overflow_add overflow_sub overflow_mul overflow_cast overflow_shl overflow_shr overflow_neg overflow_div overflow_rem invariant_of "
    "slice_bounds slice_from slice_to offset_bounds nonzero_div nonzero_rem is_broken type_inv".split()
)


def files(root, *ends):
    for folder, dirs, names in os.walk(os.path.join(root, "crates")):
        dirs[:] = sorted(d for d in dirs if d != "out")
        for n in sorted(names):
            if n.endswith(ends):
                yield os.path.join(folder, n)


def read(path):
    with open(path, encoding="utf-8") as f:
        return f.read()


def is_made(path):
    return os.path.basename(path) in ("Answers.antt", "Invariants.antt", "Choices.antt", "Proof.antt")


def answers(text):
    """The names that the check asks for in a function's own proof files."""
    return set(re.findall(r"^(?:abbrev |unfoldable )?(?:pub )?([\w'-]+) : goal\.", text, re.M))


def declared(root):
    """The dashed names of definitions, and of lemmas."""
    words, lemmas = set(), set()
    for path in files(root, ".antt"):
        text = read(path)
        if is_made(path):
            made = answers(text)
        else:
            made = set()
        block = None
        for line in text.split("\n"):
            m = re.match(r" *(?:abbrev |unfoldable )?(?:pub )?(record|data) ([\w'-]+)", line)
            if m:
                block = m[1]
                words.add(m[2])
                continue
            m = re.match(r" *(?:abbrev|unfoldable) (?:pub )?([\w'-]+(?: [\w'-]+)*) :", line)
            if m:
                block = None
                words.update(set(m[1].split()) - made)
                continue
            m = re.match(r"(?:pub )?([A-Za-z][\w'-]*(?: [A-Za-z][\w'-]*)*) :(?: |$)", line)
            if m:
                block = None
                names = set(m[1].split()) - made
                (words if "/specs/" in path else lemmas).update(names)
                continue
            m = re.match(r" +(?:pub )?([A-Za-z][\w'-]*(?: [A-Za-z][\w'-]*)*) :(?: |$)", line)
            if m and (block or "/specs/" in path):
                words.update(m[1].split())
    for path in files(root, ".rt"):
        words.update(re.findall(r"\bghost ([\w'-]+)\s*:", read(path)))
    # port.py writes an underscore into a type's name too
    dashed = lambda names: {n for n in names if "-" in n or (n[0].isupper() and "_" in n)}
    return dashed(words), dashed(lemmas) - words


def turned(word):
    if word in OTHERWISE:
        return OTHERWISE[word]
    if word[0].isupper():
        parts = re.split("[-_]", word)
        return parts[0] + "".join(p[:1].upper() + p[1:] for p in parts[1:])
    return word.replace("-", "_")


def joined(parts, known, spell):
    """The parts with dashes between, but that a longest run of them that is known is spelled as one."""
    out, i = [], 0
    while i < len(parts):
        for j in range(len(parts), i + 1, -1):
            run = parts[i:j]
            if known(run):
                out.append(spell(run))
                i = j
                break
        else:
            out.append(parts[i])
            i += 1
    return "-".join(out)


def borrowed(root):
    """The names that are taken from the kit's libraries: they stay."""
    kit = set()
    for path in files(root, ".antt", ".rt"):
        for names in re.findall(r"\buse Rattle\.(?:std|core|io)\.[\w.+]*\.\{([^}]*)\}", read(path)):
            for item in names.split(","):
                kit.update(item.split(" as ")[0].split())
    return kit


def table(root):
    kit = borrowed(root)
    words, lemmas = (names - kit for names in declared(root))
    rows = {w: turned(w) for w in words}
    for name in lemmas:
        new = joined(name.split("-"), lambda run: "-".join(run) in words and len(run) > 1, lambda run: turned("-".join(run)))
        if new != name:
            rows[name] = OTHERWISE.get(name, new)
    return rows


def code_names(root):
    """For each crate the names of its code with an underscore, and those that stand at items."""
    names, items = collections.defaultdict(set), collections.defaultdict(set)
    for path in files(root, ".rt"):
        crate = path.split("/crates/")[1].split("/")[0]
        text = read(path)
        names[crate].update(re.findall(r"\b[a-z]\w*_\w+\b", text))
        items[crate].update(re.findall(r"\b(?:fn|struct|enum|trait|const|mod|static|type) ([A-Za-z_]\w*)", text))
    return names, items


def is_field(name, before, behind, text):
    if before.endswith("."):
        return True
    if behind.startswith(" = "):
        return bool(re.search(r"(?:[{;] |\n +)$", before))
    # a lemma of that name has clauses behind its declaration
    return behind.startswith(" : ") and bool(re.search(r"\n +pub $", before)) and not re.search(r"\n +%s [^:\n]*=" % name, text)


def respell_antt(text, rows, known, made):
    """One file of definitions or proofs."""
    local = {}
    if made:
        text = re.sub(r"(?<=\w)·(?=\d)", "-", text)
        for name in answers(text) | set(re.findall(r"goal\.([\w'-]+)", text)):
            local[name] = joined(name.split("-"), known, "_".join)
    def token(m):
        name, at = m[0], m.start()
        if "-" not in name and name not in rows:
            return name
        before = text[:at]
        if made:
            if re.search(r"(?<![\w'-])(?:goal|c|l)\.$", before):
                return joined(name.split("-"), known, "_".join)
            if name in local and name not in rows:
                return local[name]
        if name in FIELDS and is_field(name, before, text[m.end() :], text):
            return name.replace("-", "_")
        if name in rows:
            return rows[name]
        return name
    return TOKEN.sub(token, text)


STRING = re.compile(r'//[^\n]*|[bc]?r(#*)".*?"\1|[bc]?"(?:\\.|[^"\\])*"', re.S)


def respell_code(text, rows):
    """Clauses and ghost items of a file of code: a dashed name stands nowhere else in laid out code. Strings and comments stay."""
    out, at = [], 0
    for m in STRING.finditer(text):
        out.append(TOKEN.sub(lambda t: rows.get(t[0], t[0]), text[at : m.start()]))
        out.append(m[0])
        at = m.end()
    out.append(TOKEN.sub(lambda t: rows.get(t[0], t[0]), text[at:]))
    return "".join(out)


def respell_page(text, rows):
    """Spans of code in a page."""
    return re.sub(r"`[^`\n]+`", lambda m: TOKEN.sub(lambda t: rows.get(t[0], t[0]), m[0]), text)


def main():
    root = os.getcwd()
    check = "--check" in sys.argv
    rows = table(root)
    names, items = code_names(root)
    # what falls together
    news = collections.defaultdict(set)
    for old, new in rows.items():
        news[new].add(old)
    everything = set()
    for path in files(root, ".antt", ".rt"):
        everything.update(TOKEN.findall(read(path)))
    for new, olds in sorted(news.items()):
        if len(olds) > 1:
            print("together:", new, sorted(olds))
        if new in everything:
            print("there already:", new, sorted(olds), "item of " + " ".join(sorted(c for c in items if new in items[c])) if any(new in items[c] for c in items) else "")
    changed = 0
    for path in list(files(root, ".antt", ".rt", ".edit")) + [os.path.join(d, n) for d in ("docs", ".") for n in sorted(os.listdir(os.path.join(root, d))) if n.endswith(".md")]:
        text = read(path)
        crate = path.split("/crates/")[1].split("/")[0] if "/crates/" in path else None
        if path.endswith(".antt"):
            known = lambda run: len(run) > 1 and ("_".join(run) in names[crate] or "_".join(run) in MADE)
            new = respell_antt(text, rows, known, is_made(path))
        elif path.endswith(".md"):
            new = respell_page(text, rows)
        else:
            new = respell_code(text, rows)
        if new != text:
            changed += 1
            if not check:
                with open(path, "w", encoding="utf-8") as f:
                    f.write(new)
    print(f"{len(rows)} names, {changed} files")


main()
