#!/usr/bin/env python3
"""Brings the repository's own names of specs/ and proofs/ to the spelling of today's Rattle, once, after the kit's scripts.

usage: tools/port_names.py [--table FILE]      at the top of the repository, on what the kit's scripts wrote

Words are in snake case: `isText` becomes `is_text`, `weight-length` becomes `weight_length`. Modules of proofs/ that began with a small letter
get a capital. Of names that would fall together the definition keeps the plain name, and the lemma gets `_lem`. Functions of src/, exported
names, strings, inputs and outputs stay. --table writes the old and the new names, a tab between, for what is brought over by hand.
"""

import collections
import os
import re
import sys

WORD = re.compile(r'[^\s(){}.;,@"«»\x60]+')
DECLARED = re.compile(
    r"(?m)^ *(?:(?:pub|abbrev|unfoldable|data|record|mutual) +)*([^\s(){}.;,@\"«»]+)(?: \{[^{}\n]*\}| \([^()\n]*\))* :(?= )"
)
MANY = re.compile(r"(?m)^ +([a-z][\w']*(?: [a-z][\w']*)+) : [A-Z]\S*$")
ALIAS = re.compile(r"(?m)^use .*")
DERIVED = re.compile(r"deriving Discrete as (\S+)")
QUIET = re.compile(r'"[^"\n]*"|(?<![^\s(){}.;,@"«»])--[^\n]*')
SPAN = re.compile(r"\x60[^\x60\n]+\x60")
# Heads of paths that Rattle makes: what stands behind them has the source's spelling, or Rattle's own.
MADE = re.compile(r"^(?:[cwlg]\d?|c\.\w+)\.|^tie\.|^goal\.")
PATH = re.compile(r'[^\s(){};,@"«»\x60]+')
# A word of the library that the same files bring in has the plain name.
OF_THE_LIBRARY = ("bit-or", "is-nan", "nan-bits")
MODULES = ("stored", "text", "numerals", "rewriting", "choosing")


def files(root):
    for folder, dirs, names in os.walk(os.path.join(root, "crates")):
        dirs[:] = sorted(d for d in dirs if d not in ("out", "must-fail"))
        for name in sorted(names):
            if name.endswith((".rt", ".antt")):
                yield os.path.join(folder, name)


# A run of capitals is one word.
RUNS = {"isAHLetter": "is_ah_letter", "is_aHLetter": "is_ah_letter"}


def snake(name):
    if name in RUNS:
        return RUNS[name]
    words = re.sub(r"(?<=[a-z0-9])[A-Z]", lambda m: "_" + m[0].lower(), name)
    return words.replace("-", "_")


def is_generated(path):
    return os.path.basename(path) in ("Proof.antt", "Answers.antt", "Invariants.antt") and "/proofs/" in path


def declared(texts):
    """Each own name that begins with a small letter, with the files that declare it."""
    found = collections.defaultdict(set)
    for path, text in texts.items():
        if path.endswith(".antt") and not os.path.basename(path) == "Proof.antt":
            code = QUIET.sub(" ", text)
            many = [n for line in MANY.findall(code) for n in line.split() if line.split()[0] not in ("pub", "abbrev", "unfoldable")]
            brought = [n for line in ALIAS.findall(code) for n in re.findall(r" as (\w+)", line) if snake(n) != n]
            for name in DECLARED.findall(code) + DERIVED.findall(code) + many + brought:
                if name[0].islower():
                    found[name].add(path)
    return found


def table_of(names):
    """The new name of each own name, and the plain lemmas that give way to a definition of that name."""
    groups = collections.defaultdict(list)
    for name in names:
        groups[snake(name)].append(name)
    table, giving_way = {}, {}
    for new, olds in groups.items():
        defs = [o for o in olds if "-" not in o and o != new]
        plain = [o for o in olds if o == new]
        lemmas = [o for o in olds if "-" in o]
        for o in defs:
            table[o] = new
        for o in lemmas:
            table[o] = new + "_lem" if defs or plain or o in OF_THE_LIBRARY else new
        if defs and plain:
            giving_way[new] = new + "_lem"
    return table, giving_way


def module_path(path, root):
    """The path by which a file is imported, as Rattle.rules.proofs.stored.Parts."""
    parts = os.path.relpath(path, os.path.join(root, "crates"))[: -len(".antt")].split(os.sep)
    return "Rattle." + ".".join(parts)


def give_way(text, path, giving_way, names, modules):
    """Plain lemmas get `_lem`, where the file declares them, brings them in, or names them behind their module."""
    code = QUIET.sub(" ", text)
    for old, new in giving_way.items():
        homes = {modules[it] for it in names[old]}
        if not re.search(rf"(?<![\w'-]){old}(?![\w'-])", code):
            continue
        aliases = set()
        for home in homes:
            for m in re.finditer(rf"(?m)^use {re.escape(home)}(?: as (\S+))?$", code):
                aliases.add(m[1] or home.split(".")[-1])
        for alias in aliases:
            text = re.sub(rf"(?<![\w'.-]){re.escape(alias)}\.{old}(?![\w'-])", f"{alias}.{new}", text)
        brought = any(re.search(rf"(?m)^use {re.escape(h)}\.\{{[^}}]*(?<![\w'-]){old}(?![\w'-])", code) for h in homes)
        if brought or path in names[old]:
            text = re.sub(rf"(?<![\w'.-]){old}(?![\w'-])", new, text)
    return text


def turn_words(text, table, made=True):
    def path(m):
        whole = m[0]
        keep = made and MADE.match(whole)
        parts = whole.split(".")
        for k, part in enumerate(parts):
            if part in table and not (keep and k and "-" in part and part not in FIELDS):
                parts[k] = table[part]
        return ".".join(parts)

    return PATH.sub(path, text)


FIELDS = set()


def fields(texts):
    for path, text in texts.items():
        for m in re.finditer(r"record (\S+)[^\n]*where\n((?:[ ]+[^\n]*\n|\n)+)", text):
            FIELDS.update(re.findall(r"(?m)^ +(?:pub )?(\S+) :", m[2]))


def comment(text, table):
    """In a comment a name in camel case turns, and one with a dash between backquotes."""
    camel = {o: n for o, n in table.items() if re.search("[a-z0-9][A-Z]", o)}
    text = SPAN.sub(lambda m: turn_words(m[0], table, False), text)
    return re.sub(r"[A-Za-z][\w'-]*", lambda m: camel.get(m[0], m[0]), text)


def turn_antt(text, table):
    out, at = [], 0
    for m in QUIET.finditer(text):
        out.append(turn_words(text[at : m.start()], table))
        out.append(m[0] if m[0][0] == '"' else comment(m[0], table))
        at = m.end()
    return "".join(out + [turn_words(text[at:], table)])


def turn_rt(text, table):
    """Clauses and ghost items alone have these names; code has none in camel case and none with a dash."""
    out = []
    for line in text.split("\n"):
        code, slashes, note = line.partition("//")
        if '"' not in code:
            code = re.sub(r'[^\s(){}.;,@"«»\x60!&|*+/=<>\[\]:]+', lambda m: table.get(m[0], m[0]), code)
        out.append(code + slashes + comment(note, table))
    return "\n".join(out)


OTHERS = re.compile(r"(?m)^(?:ghost )?use (\S+)\.\{([^}]*)\}")


def of_a_library(text, own):
    """What a file brings in from a library keeps the library's spelling there."""
    found = set()
    for path, items in OTHERS.findall(text):
        if not (path.startswith("Rattle.") and path.split(".")[1] in own):
            found.update(WORD.findall(items.replace(" as ", " ")))
    return found


def clashes(texts, table, names):
    """Names that a file has already, or brings in from a library."""
    for path, text in texts.items():
        code = QUIET.sub(" ", text) if path.endswith(".antt") else re.sub(r"//[^\n]*", "", text)
        words = set(WORD.findall(code))
        bare = set(re.findall(r'(?<![\w\'.-])([a-z][\w\'-]*)', code))
        news = collections.defaultdict(set)
        for old in words:
            if old in table:
                news[table[old]].add(old)
        for new, olds in news.items():
            if len(olds) > 1:
                print(f"clash: {path}: {sorted(olds)} become {new}")
            if new in bare and new not in olds:
                print(f"clash: {path}: {sorted(olds)} becomes {new}, which stands there")


def move_modules(root):
    if not os.path.exists(os.path.join(root, "crates", "rules", "proofs", "stored.antt")):
        return
    base = os.path.join(root, "crates", "rules", "proofs")
    for name in MODULES:
        for tail in (".antt", ""):
            os.rename(os.path.join(base, name + tail), os.path.join(base, name.capitalize() + tail))
    for path in files(root):
        with open(path, encoding="utf-8") as f:
            text = f.read()
        new = re.sub(r"\bRattle\.rules\.proofs\.(\w+)", lambda m: "Rattle.rules.proofs." + (m[1].capitalize() if m[1] in MODULES else m[1]), text)
        if path == os.path.join(base, "Lib.antt"):
            new = re.sub(r"(?m)^(pub mod |mod )(\w+)$", lambda m: m[1] + (m[2].capitalize() if m[2] in MODULES else m[2]), new)
        if new != text:
            with open(path, "w", encoding="utf-8") as f:
                f.write(new)


def main(argv):
    root = "."
    move_modules(root)
    texts = {}
    for path in files(root):
        with open(path, encoding="utf-8") as f:
            texts[path] = f.read()
    names = declared(texts)
    fields(texts)
    table, giving_way = table_of(names)
    modules = {p: module_path(p, root) for p in texts if p.endswith(".antt")}
    texts_before = dict(texts)
    for path, text in texts.items():
        if path.endswith(".antt"):
            texts[path] = give_way(text, path, giving_way, names, modules)
    clashes(texts, table, names)
    own = set(os.listdir(os.path.join(root, "crates")))
    for path, text in texts.items():
        theirs = of_a_library(text, own)
        here = {o: n for o, n in table.items() if o not in theirs}
        new = turn_antt(text, here) if path.endswith(".antt") else turn_rt(text, here)
        if new != texts_before[path]:
            with open(path, "w", encoding="utf-8") as f:
                f.write(new)
    if "--table" in argv:
        with open(argv[argv.index("--table") + 1], "w", encoding="utf-8") as f:
            for old, new in sorted({**table, **giving_way}.items()):
                f.write(f"{old}\t{new}\n")
    print(f"port_names: {len(table) + len(giving_way)} names")


if __name__ == "__main__":
    main(sys.argv[1:])
