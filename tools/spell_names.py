#!/usr/bin/env python3
"""Spells this repository's own names as today's Rattle does: words in snake case; in a lemma's name a dash stays only between two names of functions.

usage: tools/spell_names.py            at the top of the repository, once, after port.py
       tools/spell_names.py --list     prints old and new names, and writes nothing

Types, modules and what the toolchain names keep their spelling. A new name that would fall together with another gets `_lem`.
"""
import re
import sys
from pathlib import Path

CRATES = Path("crates")
TOKEN = re.compile(r"[^\s(){};,.@\"`⦃⦄⟨⟩⌜⌝|]+")
SIGNATURE = re.compile(r"^\s*(?:pub |abbrev |unfoldable |pattern )*([^\s(){}:,;λ]+(?: [^\s(){}:,;]+)*)(?: \{[^}]*\})* : ")
NO_NAME = re.compile(r"(module|use|data|record|let|in|rw|where)\b")
# Names of std's that a lemma's name may hold.
STD = "length take drop append put replicate map get_or set reverse cons nil all any sum and or not cond zero suc".split()


def sources(*endings):
    return sorted(p for p in CRATES.rglob("*") if p.suffix in endings and "out" not in p.parts)


def by_hand(path):
    return path.suffix == ".antt" and path.name not in ("Proof.antt", "Invariants.antt", "Answers.antt")


def code_of(line):
    return re.sub(r"(^|\s)--(\s.*|$)", "", line)


def snake(word):
    word = re.sub(r"([a-z0-9'])([A-Z])", r"\1_\2", word)
    return re.sub(r"([A-Z]+)([A-Z][a-z])", r"\1_\2", word).lower()


def is_camel(word):
    return re.match(r"[a-z]", word) is not None and re.search(r"[A-Z]", word) is not None


def names():
    declared, functions, fields, tokens = set(), set(STD), set(), set()
    for path in sources(".antt"):
        in_record = False
        for line in path.read_text(encoding="utf-8").splitlines():
            code = code_of(line)
            # The path of an import and what stands behind a dot are names of modules, steps and fields, which no name falls together with.
            bare = re.sub(r"^use \S+?(\.\{| as |$)", "", code)
            tokens.update(f[0] for f in TOKEN.finditer(bare) if by_hand(path) or bare[f.start() - 1 : f.start()] != ".")
            if not by_hand(path):
                continue
            if re.match(r"\s*(pub )?record .* where", code):
                in_record = True
                continue
            found = SIGNATURE.match(code)
            if found is None:
                in_record = in_record and not code.strip()
                continue
            if NO_NAME.match(found[1]):
                continue
            for name in found[1].split():
                declared.add(name)
                if in_record:
                    fields.add(name)
                elif "specs" in path.parts and "-" not in name:
                    functions.add(snake(name))
    return declared, functions, fields, tokens


def spelled(name, functions):
    parts = name.split("-")
    parts = [snake(part) if is_camel(part) else part for part in parts]
    out = parts[0]
    for before, part in zip(parts, parts[1:]):
        out += ("-" if before in functions and part in functions else "_") + part
    return out


def renaming():
    declared, functions, fields, tokens = names()
    olds = {n for n in declared if "-" in n and not re.search(r"[◌]", n)} | {t for t in tokens if is_camel(t) and "-" not in t}
    new = {}
    taken = set(tokens) | {"spec"}
    for old in sorted(olds, key=lambda n: ("-" in n, n)):  # a function has the name before a lemma
        name = spelled(old, functions)
        if name == old:
            continue
        if "-" not in old:
            if name in declared:
                new[name] = name + "_lem"
                taken.add(name + "_lem")
        else:
            while name in taken:
                name += "_lem"
        taken.add(name)
        new[old] = name
    return new, fields


def respell(line, new, fields, hyphens, all_dotted):
    """The line with its tokens renamed; hyphened names only where `hyphens`, and behind a dot only fields or where `all_dotted`."""

    def one(found):
        word = found[0]
        if word not in new:
            return word
        if not is_camel(word) or "-" in word:
            dotted = found.start() > 0 and line[found.start() - 1] == "."
            if not hyphens or (dotted and not all_dotted and word not in fields):
                return word
        return new[word]

    return TOKEN.sub(one, line)


def turn(path, new, fields):
    text = path.read_text(encoding="utf-8")
    out = []
    of_antt = path.suffix == ".antt"
    for line in text.split("\n"):
        if path.suffix == ".edit":
            if line.startswith("file:"):
                of_antt = line.strip().endswith(".antt")
            out.append(respell(line, new, fields, of_antt, True))
        elif path.suffix == ".antt":
            code = code_of(line)
            out.append(respell(code, new, fields, True, by_hand(path)) + respell(line[len(code):], new, fields, False, False))
        elif path.suffix == ".rt":
            out.append(respell(line, new, fields, False, False))
        else:
            out.append(respell_page(line, new))
    made = "\n".join(out)
    if made != text:
        path.write_text(made, encoding="utf-8")
    return made != text


def respell_page(line, new):
    """In a page: names in snake case for names in camel case; hyphened ones behind a module's name or in backquotes alone."""
    line = TOKEN.sub(lambda f: new[f[0]] if f[0] in new and is_camel(f[0]) and "-" not in f[0] else f[0], line)
    line = re.sub(r"(?<=[A-Za-z0-9]\.)[^\s(){};,.@\"`|]+", lambda f: new.get(f[0], f[0]), line)
    return re.sub(r"`([^`\s]+)`", lambda f: "`" + new.get(f[1], f[1]) + "`", line)


def main():
    new, fields = renaming()
    if "--list" in sys.argv:
        for old in sorted(new):
            print(old, new[old])
        return
    pages = [Path("README.md"), *Path("docs").rglob("*.md"), *Path(".ci").glob("*.edits")]
    changed = [turn(p, new, fields) for p in [*sources(".antt", ".rt", ".edit"), *pages]]
    print(f"{len(new)} names, {sum(changed)} files")


if __name__ == "__main__":
    main()
