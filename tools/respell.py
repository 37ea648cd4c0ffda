#!/usr/bin/env python3
"""Brings the repository's own definitions and lemmas to one spelling, after the port's own script.

usage: python3 tools/respell.py [--dry]     at the top of the repository, once, right after port.py

Types and modules stay in upper camel case; everything else is in snake case, and a dash joins two names, as in
`length-receivers`. It goes by text: names that the repository's .antt files declare are respelled in every .antt
file, in the clauses of .rt files, in must-fail edits and where pages quote them. A module `Contracts` is called PrivateContracts.
"""

import glob
import os
import re
import sys

NAME = r"[^\s(){}.;,@\"«»]+"
HEAD = r"(?m)^[ \t]*(?:(?:abbrev|unfoldable|pub|data|record|private)[ \t]+)*"
DECLARED = re.compile(HEAD + rf"((?:(?!--)[^\s(){{}}.;,@\"«»:]+[ \t]+)+)(?:\{{[^{{}}\n]*\}}[ \t]*|\([^()\n]*\)[ \t]*)*:(?=\s)")
OF_LIBRARY = """length take drop append map reverse get_or eqb leb ltb cond not set sum all any filter concat xor_bit
tabulate min max""".split()
GENERATED = re.compile(r"(?m)^ *(?:abbrev )?(?:pub )?([^\s:]+) :\s+(?:\{[^{}]*\}\s*→\s*)?(?:\([^()]*\)\s*→\s*)*(?:tie|lts)\.")
# Names whose plain spelling would meet another name.
CHOSEN = {}
# A kind of finding, which pages quote too.
SAID_TO_PEOPLE = {"no-port"}
COMMENT = re.compile(r"--.*")


def files(kind):
    for folder, folders, names in os.walk("crates"):
        folders[:] = sorted(f for f in folders if f != "out")
        for name in sorted(names):
            if name.endswith(kind):
                yield os.path.join(folder, name)


def read(path):
    with open(path, encoding="utf-8") as file:
        return file.read()


def snake(word):
    return re.sub(r"(?<=[a-z0-9])([A-Z])", lambda m: "_" + m[1].lower(), word)


def declared_names(text):
    for found in DECLARED.finditer(text):
        yield from found[1].split()


def wants_respelling(name):
    return not name[:1].isupper() and re.search(r"[a-z0-9][A-Z]|\w-\w", name) or re.fullmatch(r"[A-Z0-9]+(-[A-Z0-9]+)+", name)


def joined(name, functions):
    """A dash stays where it joins a function of the library and a function."""
    if name[:1].isupper():
        return name.replace("-", "_")
    parts = [snake(part) for part in name.split("-")]
    rest = "_".join(parts[1:])
    if parts[0] in OF_LIBRARY and rest in functions:
        return parts[0] + "-" + rest
    return "_".join(parts)


def main():
    dry = "--dry" in sys.argv
    declared, functions = set(), set(OF_LIBRARY)
    goals = set()
    for path in files("Proof.antt"):
        goals |= set(GENERATED.findall(read(path)))
    for path in files(".antt"):
        text = COMMENT.sub("", read(path))
        generated = set(GENERATED.findall(text)) if path.endswith("Proof.antt") else set()
        mine = set(declared_names(text)) - generated
        if path.endswith("Proof.antt"):
            mine = {name for name in mine - goals if not name.endswith("-spec")}
        if "/specs/" in path:
            functions |= {snake(name) for name in mine if "-" not in name and not name[:1].isupper()}
        declared |= mine
    table = {}
    for name in sorted(declared):
        if wants_respelling(name):
            table[name] = CHOSEN.get(name) or joined(name, functions)
    table = {old: new for old, new in table.items() if old != new}
    said = []
    # Lemmas that port.py itself gave the name that a definition gets here.
    respelled_by_port = {}
    news = {}
    for old, new in table.items():
        news.setdefault(new, []).append(old)
    for new, olds in news.items():
        for old in olds:
            # A lemma that would have its function's name gets `_lem`.
            if "-" in old and (len(olds) > 1 or new in declared):
                table[old] = new + "_lem"
            elif new in declared and len(olds) == 1:
                respelled_by_port[new] = new + "_lem"
            elif len([it for it in olds if "-" not in it]) > 1:
                said.append(f"meet: {new} {' '.join(olds)}")

    word = re.compile(NAME)
    undotted = re.compile(r"(?<![^\s(){};,@\"«»])" + NAME + r"(?!\.)")
    moved = []
    for path in list(files(".antt")):
        text = read(path)
        generated = set(GENERATED.findall(text)) if path.endswith("Proof.antt") else set()
        present = set(re.findall(r"(?<![^\s(){};,@\"«»])" + NAME, COMMENT.sub("", text)))
        for old in sorted(present & set(table)):
            if table[old] in present - set(respelled_by_port):
                said.append(f"taken: {path}: {old} {table[old]}")
        lines = []
        text_before, text = text, undotted.sub(lambda m: respelled_by_port.get(m[0], m[0]), text)
        for line in text.split("\n"):
            at = line.find("--")
            code, note = (line, "") if at < 0 else (line[:at], line[at:])
            code = word.sub(lambda m: m[0] if m[0] in generated else table.get(m[0], m[0]), code)
            note = re.sub(r"(?<![\w-])[a-z]+[a-z0-9]*[A-Z]\w*(?![\w-])", lambda m: table.get(m[0], m[0]), note)
            note = re.sub(r"(?<=`)[^\s`]+(?=`)", lambda m: table.get(m[0], m[0]), note)
            lines.append(code + note)
        moved.append((path, text_before, "\n".join(lines)))
    in_rust = re.compile(r"(?<![\w.:\"'-])[A-Za-z][\w']*(?:-[\w']+)*(?![\w\"-])|(?<=\.)[a-z][\w']*(?:-[\w']+)*(?![\w(-])")
    for path in list(files(".rt")):
        text = read(path)
        code = re.sub(r"//.*", "", text)
        present = set(re.findall(r"[\w'-]+", code))
        own = set(re.findall(r"\b(?:const|static|ghost) (\w+)", code))
        for heading in re.findall(r"\bfn \w+(?:<[^>]*>)?\(([^{]*?)\)(?: ->|\s*(?:requires|ensures|\{))", code):
            own |= set(re.findall(r"(\w+):", heading))
        for old in sorted(present & set(table)):
            if table[old] in own:
                said.append(f"taken: {path}: {old} {table[old]}")
        lines = []
        for line in text.split("\n"):
            at = line.find("//")
            code, note = (line, "") if at < 0 else (line[:at], line[at:])
            code = in_rust.sub(lambda m: table.get(m[0], m[0]), code)
            lines.append(code + note)
        moved.append((path, text, "\n".join(lines)))
    for path in list(files(".edit")):
        text = read(path)
        lines = []
        for line in text.split("\n"):
            if line.startswith(("old:", "new:")):
                line = word.sub(lambda m: table.get(m[0], m[0]), line)
            lines.append(line)
        moved.append((path, text, "\n".join(lines)))
    for path in sorted(glob.glob("*.md") + glob.glob("docs/**/*.md", recursive=True)):
        text = read(path)
        known = {old: new for old, new in table.items() if old not in SAID_TO_PEOPLE}
        quoted = re.sub(r"`[^`\n]+`", lambda m: word.sub(lambda w: known.get(w[0], w[0]), m[0][1:-1]).join("``"), text)
        moved.append((path, text, quoted))
        if dry:
            for before, after in zip(text.split("\n"), quoted.split("\n")):
                if before != after:
                    print("page:", after)
    with open("/tmp/respell-table.txt", "w", encoding="utf-8") as file:
        for old, new in sorted(table.items()):
            file.write(f"{old}\t{new}\n")
    for line in said:
        print(line)
    print(f"respell: {len(table)} names, {sum(1 for _, a, b in moved if a != b)} files")
    if dry:
        return
    for path, before, after in moved:
        after = re.sub(r"(specs\.)Contracts(?=\.)", r"\1PrivateContracts", after)
        if path.endswith("specs/Lib.antt"):
            after = re.sub(r"(?m)^pub mod Contracts$", "pub mod PrivateContracts", after)
        if before != after:
            with open(path, "w", encoding="utf-8") as file:
                file.write(after)
        if path.endswith("specs/Contracts.antt"):
            os.rename(path, path.replace("Contracts.antt", "PrivateContracts.antt"))


main()
