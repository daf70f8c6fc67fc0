#!/usr/bin/env python3
"""Spells the repository's own definitions and lemmas as the kit's style asks: words in snake case, a dash only between two names.

usage: tools/respell.py [--check]   at the top, once, after the kit's own script has run

`fixedAt-eight` becomes `fixed_at_eight`, `length-offsetBytes` becomes `length-offset_bytes`. Names of types and facts keep their capitals; names of src/, of goals and
of the kit's library stay. A name that would meet another stays, and a line says so. Turned are .antt files, the ghost lines and clauses of .rt files, the texts of
must-fail edits, and the code spans of pages.
"""
import collections
import os
import re
import subprocess
import sys

WORD = re.compile(r'[^\s(){}.;,@"«»`]+')
DECLARED = re.compile(r"^\s*(?:abbrev |unfoldable |pub )*([^\s(){}.;,@\"«»`:]+)(?: \{[^{}\n]*\})* : (.*)$")
GOAL = re.compile(r"^(tie|goal)\.|^statement\b|^\{M : Type 1\} → statement")
LABELS = re.compile(r"(?:Need-|goal\.|InvT-|MeasureT-)([\w-]+)")
DATA = re.compile(r"^\s*(?:pub )?(?:data|record) (\S+)")
CAMEL = re.compile(r"(?<=[a-z0-9])[A-Z]")


def files(ends):
    for folder, dirs, names in os.walk("."):
        dirs[:] = sorted(d for d in dirs if d not in ("out", ".git", "target"))
        for name in sorted(names):
            if name.endswith(ends):
                yield os.path.join(folder, name)


def read(path):
    with open(path, encoding="utf-8") as it:
        return it.read()


def code(text):
    return re.sub(r"(?m)(^|\s)--.*$", "", text)


def kit_words(kit):
    """The words of the kit's library, and the parts that a dash joins there."""
    words, parts = set(), set()
    for top in ("logic", "antt", "core", "std", "std_alloc", "std_collections", "std_heap", "std_io"):
        for folder, _, names in os.walk(f"{kit}/rattle/{top}"):
            for name in sorted(names):
                if name.endswith(".antt"):
                    with open(os.path.join(folder, name), encoding="utf-8", errors="replace") as it:
                        for line in it:
                            m = DECLARED.match(line)
                            if m:
                                words.add(m[1])
    for word in words:
        if "-" in word.strip("-"):
            parts.update(p for p in word.split("-") if p)
    return words, {p for p in parts if p in words}


def snake(part):
    """A part of a name; one that begins with a capital is a type or a fact, and stays."""
    if not part or not re.match(r"[a-zα-ω]", part):
        return part
    return CAMEL.sub(lambda m: "_" + m[0].lower(), part)


def rust_names():
    functions, fields = set(), set()
    for path in files(".rt"):
        text = read(path)
        functions.update(re.findall(r"\bfn (\w+)", text))
        fields.update(re.findall(r"(?m)^\s+(?:pub )?(\w+): [^=\n]*,$", text))
    return functions, fields


def record_fields():
    """Fields of the records of .antt files."""
    found = set()
    for path in files(".antt"):
        inside = False
        for line in code(read(path)).split("\n"):
            if re.match(r"(pub )?record\b", line):
                inside = True
            elif re.match(r"\S", line):
                inside = False
            elif inside:
                m = DECLARED.match(line)
                if m:
                    found.add(m[1])
    return found


def top_names():
    """Names declared at the margin, or inside a module's section, of .antt files, that are no field."""
    return {m[1] for path in files(".antt") for line in code(read(path)).split("\n") for m in [re.match(r"(?:abbrev |unfoldable |pub )*([^\s(){}.;,@]+)(?: \{[^{}\n]*\})* : ", line)] if m}


def old_in(olds, tops):
    return any(o in tops for o in olds)


def snake_met(new, fields):
    return any(snake(f) == new for f in fields)


def main():
    kit = os.path.dirname(subprocess.run(["rt", "doc"], capture_output=True, text=True, check=True).stdout.strip())
    library, joined = kit_words(kit)
    declared, labels, everything, heads = collections.Counter(), set(), set(), set()
    for path in files(".antt"):
        for line in code(read(path)).split("\n"):
            everything.update(WORD.findall(line))
            labels.update(LABELS.findall(line))
            m = DECLARED.match(line)
            if m and not GOAL.match(m[2].strip()):
                declared[m[1]] += 1
            m = DATA.match(line)
            if m:
                heads.add(m[1])
    # a parameter or a bound variable in camel case is the repository's own too
    own = set(declared) | {w for w in everything if CAMEL.search(w) and not re.match(r"[A-Z]", w)}
    own = {w for w in own if re.match(r"[a-zA-Zα-ω]", w) and w not in library and w not in labels and not w.startswith(("Need-", "InvT-", "MeasureT-"))}
    names = {snake(w) for w in declared if "-" not in w} | heads | joined
    table = {}
    for word in own:
        parts = [snake(p) for p in word.split("-")]
        new = parts[0]
        for left, right in zip(parts, parts[1:]):
            keeps = left in names and right in names and word not in labels
            new += ("-" if keeps else "_") + right
        if new != word:
            table[word] = new
    table["firstKey"] = "the_first_key"
    # Names that fall together. A lemma that would have its function's name gets `_lem`; a function that would have the name of a field gets `_of`. A word that is
    # only a Rust function's, as a goal's step or a module's path has it, meets nothing.
    functions, fields = rust_names()
    own_fields, tops = record_fields(), top_names()
    fields |= own_fields
    lemmas = {w for w in declared if w not in table}
    for old, new in sorted(table.items()):
        if old in tops and (new in fields or snake_met(new, own_fields)) or new in lemmas and new in functions:
            table[old] = new + "_of"
        elif new in lemmas:
            table[new] = new + "_lem"
    met = collections.defaultdict(set)
    for old, new in table.items():
        met[new].add(old)
    for new, olds in sorted(met.items()):
        if len(olds) == 2 and sum("-" in o for o in olds) == 1:
            lemma = next(o for o in olds if "-" in o)
            table[lemma] = new + "_lem"
        elif len(olds) > 1 or old_in(olds, tops) and new in everything and new not in table and new not in functions and not os.path.isdir(f"crates/{new}"):
            for old in sorted(olds):
                print(f"stays: {old} (would meet {new})")
                del table[old]
    turn = lambda m: table.get(m[0], m[0])
    count = 0
    for path in files((".antt", ".edit", ".md", ".rt")):
        if path.startswith("./tools/"):
            continue
        was = read(path)
        if path.endswith((".antt", ".edit")):
            new = WORD.sub(turn, was)
        elif path.endswith(".rt"):
            new = rust(was, turn)
        else:
            new = re.sub(r"`[^`\n]+`", lambda m: WORD.sub(turn, m[0]), was)
        if new != was:
            count += 1
            if "--check" not in sys.argv:
                with open(path, "w", encoding="utf-8") as it:
                    it.write(new)
    for old in sorted(table):
        print(f"{old}\t{table[old]}")
    print(f"{len(table)} names in {count} files")


def rust(text, turn):
    """Ghost lines, clauses and comments' code spans."""
    out = []
    for line in text.split("\n"):
        if re.match(r"\s*(ghost\b|requires\b|ensures\b|ghost use\b)", line):
            line = WORD.sub(turn, line)
        elif "//" in line:
            head, tail = line.split("//", 1)
            line = head + "//" + re.sub(r"`[^`]+`", lambda m: WORD.sub(turn, m[0]), tail)
        out.append(line)
    return "\n".join(out)


main()
