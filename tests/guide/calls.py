"""The calls of the archive, by the program ask.c, and the command on the sample site."""
import json
import os
import subprocess
import sys
import tempfile

OR, AND = 0, 1
WHITESPACE, SIMPLE, KEYWORD, WORDS = 1, 2, 3, 4
ARCHIVE = os.environ.get("ARCHIVE") or "target/lib/libgorbihesh.a"
OUT = "target/tests/guide"
SITE = "examples/site"
PROGRAM = "target/command/gorbihesh"


def compiled(source, *more):
    flags = ["-std=c11", "-Wall", "-Wextra", "-Werror", "-pedantic", "-O2", "-Iinclude"]
    os.makedirs(OUT, exist_ok=True)
    subprocess.run(["gcc", *flags, f"tests/guide/{source}.c", *more, "-o", f"{OUT}/{source}"], check=True)


def build_ask():
    if not os.path.isfile(ARCHIVE):
        sys.exit(f"tests/guide: {ARCHIVE} is not here (make archive makes it)")
    compiled("ask", ARCHIVE)


def build_all():
    build_ask()
    compiled("list")
    subprocess.run(["command/build"], check=True, env={**os.environ, "ARCHIVE": ARCHIVE})


def hexed(data):
    return data.hex() or "-"


def parse_line(text, operator=OR, analyzer=SIMPLE, field=b"f", fields=b""):
    return f"parse {operator} {analyzer} {hexed(field)} {hexed(fields)} {hexed(text)}"


def ask(lines):
    """The answers to these lines, each cut at its blanks."""
    run = subprocess.run([f"{OUT}/ask"], input="".join(line + "\n" for line in lines), capture_output=True, text=True, check=True)
    answers = run.stdout.splitlines()
    assert len(answers) == len(lines)
    return answers


def site_fields():
    """The fields of the command's catalogue that are no words of the path, with their analyzers, as gorbihesh_parse takes them."""
    whole = [(KEYWORD, name) for name in (b"name", b"ext", b"kind", b"all")]
    return b"".join(bytes([analyzer, len(name)]) + name for analyzer, name in [*whole, (WORDS, b"note")])


def site_files():
    found = []
    for folder, _, names in os.walk(SITE):
        found += [os.path.relpath(os.path.join(folder, name), SITE) for name in names]
    return sorted(found)


def printed(words):
    """What the command prints, whatever its status."""
    return subprocess.run([PROGRAM, *words], capture_output=True, text=True).stdout


def picks(selectors, site=SITE):
    """The files of a site that the command picks for each selector, or its refusal."""
    with tempfile.TemporaryDirectory() as folder:
        sheet, record = f"{folder}/jobs", f"{folder}/record"
        with open(sheet, "w") as to:
            to.write("".join(f"job-{i}: {s}\n" for i, s in enumerate(selectors)))
        subprocess.run([PROGRAM, "night", "--record", record, site, sheet], stdout=subprocess.DEVNULL)
        night = json.load(open(record))
    found = {job["name"]: sorted(f["path"] for f in job["picks"]) for job in night["jobs"]}
    found |= {job["name"]: job["refusal"] for job in night["refused"]}
    return [found[f"job-{i}"] for i in range(len(selectors))]
