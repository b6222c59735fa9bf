"""Tables and code of a page in Markdown."""
import re


def tables(text):
    """Each table as a list of rows, a row as a dict from the head's cells to its own."""
    found, head = [], None
    for line in text.splitlines():
        if not line.startswith("|"):
            head = None
            continue
        cells = [c.strip().replace("\\|", "|") for c in re.split(r"(?<!\\)\|", line.strip())[1:-1]]
        if head is None:
            head = cells
            found.append([])
        elif not all(re.fullmatch(r":?-+:?", c) for c in cells):
            assert len(cells) == len(head), line
            found[-1].append(dict(zip(head, cells)))
    return found


def with_columns(text, *columns):
    """The rows of every table whose head begins with these columns."""
    return [row for table in tables(text) for row in table if tuple(row)[: len(columns)] == columns]


def codes(cell):
    return re.findall(r"`([^`]+)`", cell)


def code(cell):
    """The one code of a cell; a cell without any is a text of no bytes."""
    found = codes(cell)
    assert len(found) <= 1, cell
    return found[0] if found else ""
