"""Every table of docs/SELECTORS.md that shows a selector, beside the programs."""
import os
import re
import shlex
import tempfile

import calls
import forms
import pages

PAGE = "docs/SELECTORS.md"
FIELD = b"path"
counted = 0


def text():
    return open(PAGE).read()


def read(selectors, **setup):
    """What each selector reads as, or `refused` and the number."""
    setup = {"field": FIELD, "fields": calls.site_fields(), **setup}
    answers = [a.split() for a in calls.ask([calls.parse_line(s.encode(), **setup) for s in selectors])]
    return [forms.selector(bytes.fromhex(b), setup["field"]) if n == "0" else f"refused {n}" for n, b in answers]


def differ(what, claims):
    """Of (selector, claimed, true) those that are not so; and that there are some."""
    global counted
    counted += len(claims)
    told = [f"{PAGE}: {what}: `{s}`: it says {said!r}, and is {true!r}" for s, said, true in claims if said != true]
    return told if claims else [f"{PAGE}: {what}: no claims"]


def readings(column, rows, typed="Typed", **setup):
    """A column that says what each selector of its row reads as."""
    selectors = [pages.code(row[typed]) for row in rows]
    said = [pages.code(row[column]) or row[column] for row in rows]
    return differ(column, list(zip(selectors, said, read(selectors, **setup))))


def named(cell):
    """The files that a cell names: all but some, none, a folder's, or one by one."""
    files, spans = calls.site_files(), pages.codes(cell)
    some = [f for f in files if any(f == s or (s.endswith("/") and f.startswith(s)) for s in spans)]
    lost = [s for s in spans if not any(f == s or f.startswith(s) for f in files)]
    if lost or (cell != "none" and not spans):
        return f"no such file: {cell}"
    return [f for f in files if f not in some] if cell.startswith("all but") else some


def site():
    """The table of the sample site's files, and the clauses and signs that are shown by themselves."""
    rows = pages.with_columns(text(), "Folder", "Files")
    said = sorted(f"{pages.code(row['Folder'])}/{name}" for row in rows for name in pages.codes(row["Files"]))
    told = differ("Files", [("the sample site", said, calls.site_files())])
    shown = [pages.codes(row[first]) for first, second in (("Clause", "Asks for"), ("Sign", "Name")) for row in pages.with_columns(text(), first, second)]
    return told + passes("clauses and signs", sum(shown, []))


def passes(what, selectors):
    return differ(what, [(s, "passes", r if r.startswith("refused") else "passes") for s, r in zip(selectors, read(selectors))])


def examples():
    rows = pages.with_columns(text(), "Selector", "Picks")
    selectors = [pages.code(row["Selector"]) for row in rows]
    told = differ("Picks", [(s, named(row["Picks"]), true) for s, row, true in zip(selectors, rows, calls.picks(selectors))])
    return told if len(rows) == 22 else told + [f"{PAGE}: {len(rows)} examples, not twenty-two"]


def equals():
    """Pairs of selectors that pick the same, or one that picks nothing."""
    rows = pages.with_columns(text(), "Typed", "Read as", "Picks the same as")
    one = [pages.code(row["Typed"]) for row in rows]
    other = [pages.code(row["Picks the same as"]) for row in rows]
    assert all(o or row["Picks the same as"] == "nothing" for o, row in zip(other, rows))
    return differ("Picks the same as", list(zip(one, calls.picks(other), calls.picks(one))))


def foreign():
    """A name outside ASCII, and the selector that the page gives for it."""
    name, selector = re.search(r"`([^`]*)` is asked for by\s+`([^`]*)`", text()).groups()
    with tempfile.TemporaryDirectory() as site:
        open(os.path.join(site, name), "w").close()
        [files] = calls.picks([selector], site)
    return differ("outside ASCII", [(selector, 1, len(files))])


def analyzers():
    rows = pages.with_columns(text(), "Typed", "whitespace", "simple", "keyword", "words")
    told = []
    for name, number in (("whitespace", calls.WHITESPACE), ("simple", calls.SIMPLE), ("keyword", calls.KEYWORD), ("words", calls.WORDS)):
        told += readings(name, rows, analyzer=number, fields=b"")
    return told


def operators():
    rows = pages.with_columns(text(), "Typed", "Read as", "Where And joins")
    return readings("Read as", rows) + readings("Where And joins", rows, operator=calls.AND)


def typed():
    return readings("Read as", pages.with_columns(text(), "Typed", "Read as"))


def lucene():
    rows = pages.with_columns(text(), "Typed", "Lucene", "Here", "Write")
    return readings("Here", rows) + passes("Write", [pages.codes(row["Write"])[0] for row in rows if row["Write"]])


def headed():
    """The refusals of the header, 0 apart."""
    enum = re.search(r"enum gorbihesh_refusal \{(.*?)\};", open("include/gorbihesh.h").read(), re.S)[1]
    return [n for n in map(int, re.findall(r"= (\d+)", enum)) if n != 0]


def refusals():
    """Every refusal of the header has its row, with its words; what a selector can be refused for, an example and a cure that passes."""
    rows, causes = pages.with_columns(text(), "No.", "It says"), pages.with_columns(text(), "Typed", "Read as", "Write")
    numbers = [int(row["No."]) for row in rows]
    words = calls.ask([f"words {n}" for n in numbers])
    told = differ("It says", [(str(n), row["It says"], w) for n, row, w in zip(numbers, rows, words)])
    if numbers != headed():
        told.append(f"{PAGE}: the refusals are {numbers}, those of the header {headed()}")
    shown = [row for row in rows if pages.codes(row["Refused"])]
    selectors = [pages.code(row["Refused"]) for row in shown] + ["a" * 1025]
    said = [f"refused {row['No.']}" for row in shown] + ["refused 1"]
    told += differ("Refused", list(zip(selectors, said, read(selectors))))
    return told + passes("cures", [pages.codes(row["Write"])[0] for row in shown + causes])


# A block that begins with a command line and has what the command prints below it.
SHOWN = re.compile(r"```\n\$ gorbihesh ([^\n]*)\n(.*?)```\n", re.S)


def printed(keep):
    """What the page shows the command to print."""
    page = text()
    blocks = [(block, calls.printed(shlex.split(block[1]))) for block in SHOWN.finditer(page)]
    if keep:
        for block, true in reversed(blocks):
            page = page[: block.start(2)] + true + page[block.end(2) :]
        open(PAGE, "w").write(page)
        return []
    return differ("printed", [(block[1], block[2], true) for block, true in blocks])


def pointed_out():
    """Each clause that the page says is left out is pointed out by `gorbihesh check`."""
    rows = pages.with_columns(text(), "Typed", "Read as", "Picks the same as")
    selectors = [s for s in (pages.code(row["Typed"]) for row in rows) if "2024" in s]
    return differ("check", [(s, True, "is left out" in calls.printed(["check", "--selector", s, calls.SITE])) for s in selectors])


def wrong(keep):
    return printed(keep) + pointed_out() + site() + examples() + equals() + foreign() + typed() + operators() + analyzers() + refusals() + lucene()
