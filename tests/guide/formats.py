"""docs/FORMATS.md: its tags and limits beside the header and the definitions, its examples beside what the programs make."""
import re
import subprocess

import calls
import forms
import pages

PAGE = "docs/FORMATS.md"
HEADER = "include/gorbihesh.h"
DEFINITIONS = "crates/rules/specs/Numbers.antt"
# A line of the page that says: the block of hex below is made by this test.
MARK = r"(<!-- made by tests/guide/run: {} -->\n```\n)(.*?)(```\n)"
counted = 0


def same(what, said, true):
    global counted
    counted += 1
    return [] if said == true and said else [f"{PAGE}: {what}: it has {said}, and should have {true}"]


def tags(page):
    """One number for a name in the page, the header and the definitions."""
    said = {row["Name"].strip("`"): int(row["Tag"].strip("`"), 16) for row in pages.with_columns(page, "Tag", "Name")}
    headed = {n: int(t, 16) for n, t in re.findall(r"(GORBIHESH_\w+_TAG) = 0x(\w\w)", open(HEADER).read())}
    defined = {"GORBIHESH_" + name.upper(): int(tag, 16) for name, tag in re.findall(r"^(\w+_tag) = 0x(\w\w)$", open(DEFINITIONS).read(), re.M)}
    return same("tags, beside the header", said, headed) + same("tags, beside the definitions", said, defined)


def limits(page):
    headed = dict(re.findall(r"#define (GORBIHESH_\w+_MOST) (\d+)", open(HEADER).read()))
    rows = pages.with_columns(page, "Limit", "Name")
    said = {row["Name"].strip("`"): row["Limit"].replace(",", "") for row in rows}
    return same("limits, beside the header", said, {name: headed.get(name) for name in said})


def refusals(page):
    """Small queries and lists, each with its refusal: queries by both calls that take one."""
    told = []
    for column, calls_of in (("Query", ("rewrite {}", "select {} -")), ("List", ("select 060000 {}",))):
        for row in pages.with_columns(page, column, "Refusal"):
            given = calls.hexed(bytes.fromhex(pages.code(row[column])))
            answers = [a.split()[0] for a in calls.ask([call.format(given) for call in calls_of])]
            told += same(f"the refusal of {row[column]}", [row["Refusal"]] * len(answers), answers)
    return told


def examples(page):
    """The examples by name, as the programs make them: the selector that the page names, the list of list.c, and its rows."""
    selector = re.search(r"the selector `([^`]+)`", page)[1]
    refusal, query = calls.ask([calls.parse_line(selector.encode(), field=b"path", fields=calls.site_fields())])[0].split()
    made = subprocess.run([f"{calls.OUT}/list"], capture_output=True, check=True).stdout
    chosen, count, rows = calls.ask([f"select {query} {made.hex()}"])[0].split()
    assert refusal == chosen == "0" and int(count) > 0
    numbers = [rows[i : i + 8].upper() for i in range(0, len(rows), 8)]
    return {
        "query": forms.dump(bytes.fromhex(query)),
        "list": forms.dump(made),
        "rows": "\n".join(f"{n}  record {int(n, 16)}" for n in numbers),
    }


def wrong(keep):
    page = open(PAGE).read()
    told = tags(page) + limits(page) + refusals(page)
    for name, made in examples(page).items():
        shown = re.search(MARK.format(name), page, re.S)
        if keep and shown:
            page = page[: shown.start(2)] + made + "\n" + page[shown.end(2) :]
        else:
            told += same(f"the example {name}", shown and shown[2], made + "\n")
    if keep:
        open(PAGE, "w").write(page)
    return told
