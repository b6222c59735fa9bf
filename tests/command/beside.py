"""The command beside a plain model: a tree of odd names and odd notes, 51 selectors drawn from what the files are called and what their
notes say, and what `night`, `check` and `why` make of them.

    python3 tests/command/beside.py GORBIHESH FOLDER SEED

Writes into FOLDER and prints what differs; the exit status is 1 if anything does.
"""

import json
import os
import random
import re
import subprocess
import sys

PIECES = [b"a", b"B", b"c", b"Z", b"AND", b"0", b"1", b"3", b".", b".", b" ", b"-", b"_", b"%", b"*", b"(", b":", b'"', b"\\", b"\n",
          b"\xc3\xa9", b"\xff"]
SAID = [b"lid", b"Don't", b"3.5", b"1,000", b"THE", b"a_b", b"kg", b"m:n", b"'", b".", b",", b";", b" ", b" ", b" ", b"-", b"\n", b"\r\n", b'"', b"\\",
        b"\xc3\xa9", b"\0", b"7"]
FILES, SELECTORS = 272, 51

# A word of a note, by the boundary rules of UAX #29 for ASCII: letters, digits and _, and a mark between two letters or two digits.
WORD = re.compile(r"(?:[A-Za-z0-9_]|(?<=[A-Za-z])[:.'](?=[A-Za-z])|(?<=[0-9])[,;.'](?=[0-9]))+")


def form(name):
    """A name in ASCII, by the rule of command/README.md."""
    said = ""
    for i, byte in enumerate(name):
        itself = 0x20 <= byte < 0x7F and not re.match(rb"%[0-3][0-7][0-7]", name[i:i + 4])
        said += chr(byte) if itself else "%%%03o" % byte
    return said


def draw_name():
    while True:
        name = b"".join(random.choice(PIECES) for _ in range(random.randint(1, 5)))
        if name not in (b".", b".."):
            return name


def draw_note():
    return b"".join(random.choice(SAID) for _ in range(random.randint(0, 12)))


def words(note):
    return [word.lower() for word in WORD.findall(note.decode("latin-1")) if re.search("[A-Za-z0-9]", word)]


def make_tree(root):
    """Files below the root, by their paths, in order, and the notes on some of them. A name that is taken by a folder makes none."""
    folders = [b""] + [draw_name() + b"/" for _ in range(6)]
    folders += [random.choice(folders) + draw_name() + b"/" for _ in range(6)]
    for folder in folders:
        os.makedirs(root + b"/" + folder, exist_ok=True)
    paths = {random.choice(folders) + draw_name() for _ in range(FILES)}
    paths = {path for path in paths if not os.path.isdir(root + b"/" + path)}
    notes = {path: draw_note() for path in sorted(paths)[::3] if not os.path.isdir(root + b"/" + path + b".note")}
    said = {path + b".note": note for path, note in notes.items()}
    for path in paths | said.keys():
        with open(root + b"/" + path, "wb") as to:
            to.write(said.get(path, b""))
    return sorted(paths | said.keys()), notes


def entries(path, note):
    """What the catalogue holds of a file."""
    small = form(path).lower()
    *folders, name = small.split("/")
    dot = name.rfind(".")
    ending = {name[dot + 1:]} if 0 < dot < len(name) - 1 else set()
    return {"kind": set(folders), "name": {name}, "ext": ending, "all": {"files"}, "path": re.findall("[a-z]+", small),
            "note": words(note)}


def typed(text):
    """Between quotes, with capitals as they come."""
    quoted = '"' + text.replace("\\", "\\\\").replace('"', '\\"') + '"'
    return "".join(random.choice([c.upper(), c.lower()]) for c in quoted)


def draw_clause(records):
    """A clause that some file meets, and whether a record does."""
    field = random.choice(["kind", "name", "ext", "all", "path", "path", "note", "note"])
    has = random.choice(list(records.values()))[field]
    if not has:
        return draw_clause(records)
    if field in ("path", "note"):
        at = random.randrange(len(has))
        drawn = has[at:at + random.randint(1, 2)]
        prefix = "" if field == "path" else "note:"
        return prefix + typed(" ".join(drawn)), lambda r: any(
            r[field][i:i + len(drawn)] == drawn for i in range(len(r[field])))
    text = random.choice(sorted(has))
    return field + ":" + typed(text), lambda r: text in r[field]


def draw_selector(records):
    """A selector of one to four clauses, and the files that it picks."""
    clauses = [(random.choice(["", "+", "-"]), *draw_clause(records)) for _ in range(random.randint(1, 4))]

    def met(record, sign):
        return [meets(record) for its_sign, _, meets in clauses if its_sign == sign]

    def is_picked(record):
        needed = met(record, "+")
        return not any(met(record, "-")) and (all(needed) if needed else any(met(record, "")))

    text = " ".join(sign + clause for sign, clause, _ in clauses)
    return text, [path for path, record in records.items() if is_picked(record)]


def night(command, folder, root, selectors):
    """The record of a night, and the list for the copy."""
    sheet, record, copied = (folder + "/" + name for name in ("beside.jobs", "beside.json", "beside.list"))
    with open(sheet, "w") as to:
        to.writelines("j%d: %s\n" % (i, selector) for i, selector in enumerate(selectors))
    subprocess.run([command, "night", "--record", record, "--files-from0", copied, root, sheet], stdout=subprocess.DEVNULL)
    with open(record) as of, open(copied, "rb") as names:
        return json.load(of), names.read().split(b"\0")[:-1]


def paths_of(picks):
    return [pick["path"] for pick in picks]


def differences(command, folder):
    root = os.fsencode(folder) + b"/tree"
    files, notes = make_tree(root)
    records = {form(path): entries(path, notes.get(path, b"")) for path in files}
    drawn = [draw_selector(records) for _ in range(SELECTORS)]
    record, copied = night(command, folder, root, [text for text, _ in drawn])
    picked = {path for _, paths in drawn for path in paths}
    if record["refused"]:
        yield "refused", record["refused"]
    for (text, paths), job in zip(drawn, record["jobs"]):
        if paths_of(job["picks"]) != paths:
            yield "night", text
    if paths_of(record["nobody"]["picks"]) != [path for path in records if path not in picked]:
        yield "night", "what nobody picks"
    if [form(path) for path in copied] != [path for path in records if path in picked]:
        yield "night", "the list for the copy"

    shown = subprocess.run([command, "check", folder + "/beside.jobs", root], stdout=subprocess.PIPE).stdout.decode()
    wholes = re.findall(r"^ *([0-9,]+) files?  +whole  (.*?)(?:   <- .*)?$", shown, re.M)
    if [int(count) for count, _ in wholes] != [len(paths) for _, paths in drawn]:
        yield "check", "its counts"
    again, _ = night(command, folder, root, [text for _, text in wholes])
    if [job["picks"] for job in again["jobs"]] != [job["picks"] for job in record["jobs"]]:
        yield "check", "a selector as it is read picks something else"

    for path in random.sample(files, 20):
        status = subprocess.run([command, "why", "--", folder + "/beside.json", path], stdout=subprocess.DEVNULL).returncode
        if status != (0 if form(path) in picked else 11):
            yield "why", path


def main():
    command, folder, seed = sys.argv[1:]
    random.seed(int(seed))
    os.makedirs(folder)
    found = list(differences(command, folder))
    for what in found:
        print(*what)
    sys.exit(1 if found else 0)


main()
