"""What the contract of a public function determines: the equations that its `ensures` come to once the records of specs/ are opened.

An unknown is the answer, `result`, or what a lent slice holds at the end, `x.new`. An equation determines the unknowns on its left where its
right side has none: then two answers that meet it are equal to the same. What stands on the left beside the unknown (`left`, `left_of`,
`told`, `packed`) puts numbers and slices together; that nothing is lost by that is what the page's laws say.
"""
import glob
import re
import sys

UNKNOWN = re.compile(r"(?<![\w.'-])result(?![\w'-])|\.new\b")
MARKS = {"(": 1, ")": -1, "[": 1, "]": -1, "{": 1, "}": -1}
CLAUSE = re.compile(r"\s*(requires|ensures)(?: (\w+))? (?=\{)")


class Function:
    def __init__(self, name, parameters, answers, clauses):
        self.name = name
        self.requires = any(kind == "requires" for kind, _, _ in clauses)
        self.writes = re.findall(r"(\w+): &(?:'\w+ )?mut ", parameters) + re.findall(r"&(?:'\w+ )?mut (self)\b", parameters)
        self.answers = answers
        self.ensures = [(name, body) for kind, name, body in clauses if kind == "ensures"]


def closing(text, start):
    """The place behind the bracket that closes the one at `start`."""
    depth = 0
    for at in range(start, len(text)):
        depth += MARKS.get(text[at], 0)
        if depth == 0:
            return at + 1
    sys.exit(f"no end: {text[start : start + 60]}")


def function(name, text):
    """The function whose text begins behind its name: its parameters, what it answers and each clause, up to the brace that opens its body, or the end."""
    generics = re.match(r"<(?:[^<>]|->|<[^<>]*>)*>", text)
    end = closing(text, text.index("(", generics.end() if generics else 0))
    parameters, answers, clauses = text[:end], re.compile(r"\s*-> ([^\n{]+)").match(text, end), []
    end = answers.end() if answers else end
    while clause := CLAUSE.match(text, end):
        end = closing(text, clause.end())
        clauses.append((clause[1], clause[2], " ".join(text[clause.end() + 1 : end - 1].split())))
    if not text[end:].lstrip().startswith(("{", ";")):
        sys.exit(f"{name}: neither a clause nor a body: {text[end : end + 60]}")
    found = Function(name, parameters, answers and answers[1].strip(), clauses)
    for lent in found.writes:
        if re.search(rf"(?<![\w.'-]){lent}\.now\b", " ".join(body for _, _, body in clauses)):
            sys.exit(f"{name}: {lent} is lent for writing, and is what it was, .old, or is in the end, .new")
    return found


def heads(path, prefix, begins="pub "):
    """The functions of a file that begin so, each with its contract. A method has its type's name before its own."""
    text = re.sub(r"//.*", "", open(path).read())
    for found in re.finditer(rf'^( *){begins}(?:\w+ )*?(?:extern "C" )?fn (\w+)', text, re.M):
        types = re.findall(r"^impl(?:<.*?>)? (?:.* for )?(\w+)", text[: found.start()], re.M) if found[1] else []
        yield function("::".join([prefix, *types[-1:], found[2]]), text[found.end() :])


def public():
    """A function is public when it is `pub` in a crate's lib.rt, or in a module that lib.rt declares `pub`."""
    found = []
    for root in sorted(glob.glob("crates/*/src/lib.rt")):
        crate = root.split("/")[1]
        found += heads(root, crate)
        for module in re.findall(r"^pub mod (\w+);", open(root).read(), re.M):
            found += heads(f"crates/{crate}/src/{module}.rt", f"{crate}::{module}")
    return found


def promised():
    """The file of each function, public or not, whose contract says what it gives. A theorem of its name says that it meets that."""
    found = {}
    for path in sorted(glob.glob("crates/*/src/**/*.rt", recursive=True)):
        modules = re.sub(r"(?:/lib|/main)?\.rt$", "", path).split("/")
        for function in heads(path, "::".join([modules[1], *modules[3:]]), "(?:pub )?"):
            if function.ensures:
                found.setdefault(function.name, []).append(path)
    return found


def structs():
    """The members of each struct that a function may answer, by its name and its crate."""
    found = {}
    for path in sorted(glob.glob("crates/*/src/**/*.rt", recursive=True)):
        for name, body in re.findall(r"^pub struct (\w+) \{\n(.*?)\n\}", open(path).read(), re.M | re.S):
            found.setdefault(name, {})[path.split("/")[1]] = re.findall(r"^\s*pub (\w+):", body, re.M)
    return found


def members_of(function, members):
    """Those of what the function answers: its own crate's struct of that name, or the one that there is."""
    crates = members.get(function.answers, {})
    return crates.get(function.name.split("::")[0]) or next(iter(crates.values()), ["whole"])


def declarations(path):
    """Each declaration of a file on one line, the fields of a record after it: what begins at the margin, with what stands further in."""
    text = re.sub(r"--.*", "", open(path).read())
    for block in re.findall(r"^\S.*\n(?:(?: .*)?\n)*", text + "\n", re.M):
        head, *fields = re.split(r"^  (?=pub \S+ : )", block, flags=re.M)
        yield " ".join(head.split()), [" ".join(field.split()) for field in fields]


def records(crate):
    """The records and named statements of specs/, by name: their parameters and their statements. The crate's own come before the others',
    and a statement by cases is none."""
    found = {}
    for path in sorted(glob.glob("crates/*/specs/**/*.antt", recursive=True), key=lambda p: p.split("/")[1] == crate):
        stated, cases = {}, []
        for head, fields in declarations(path):
            if record := re.match(r"(?:\w+ )*record (\w+)(.*?) : Type 0 where$", head):
                names = [n for group in re.findall(r"\(([^:()]+) :", record[2]) for n in group.split()]
                stated[record[1]] = (names, [field.split(" : ", 1)[1] for field in fields])
            elif statement := re.match(r"([A-Z]\w*)(.*?) = (.*)", head):
                cases.append(statement[1])
                if re.fullmatch(r"(?: [\w'-]+)*", statement[2]):
                    stated[statement[1]] = (statement[2].split(), [statement[3]])
        found |= {name: said for name, said in stated.items() if cases.count(name) < 2}
    return found


def cut(text, mark):
    """The pieces of a text between marks that stand outside all brackets."""
    pieces, depth, start = [], 0, 0
    for i, c in enumerate(text):
        depth += MARKS.get(c, 0)
        if depth == 0 and text.startswith(mark, i):
            pieces.append(text[start:i])
            start = i + len(mark)
    return [p.strip() for p in pieces + [text[start:]]]


def bare(text):
    """Without brackets around it."""
    while text.startswith("("):
        depth = 0
        for end, c in enumerate(text):
            depth += MARKS.get(c, 0)
            if depth == 0:
                break
        if end + 1 < len(text):
            break
        text = text[1:-1].strip()
    return text


def applied(text):
    """A name and what it is applied to."""
    name, *arguments = [w for w in cut(text, " ") if w]
    return name, arguments


def filled(statement, names, arguments):
    """A record's statement with its parameters filled in."""
    values = dict(zip(names, arguments))
    return re.sub(r"(?<![\w.'-])[\w'-]+", lambda word: values.get(word[0], word[0]), statement)


def equations(statement, known, given=False):
    """(left, right, whether it holds for whatever was given) of each equation that the statement comes to."""
    statement = bare(statement)
    *premises, last = cut(statement, "→")
    if premises:
        return [] if any(UNKNOWN.search(p) for p in premises) else equations(last, known, True)
    conjuncts = cut(statement, "×")
    if len(conjuncts) > 1:
        return [e for c in conjuncts for e in equations(c, known, given)]
    sides = cut(statement, "≡")
    if len(sides) == 2:
        return [(bare(sides[0]), sides[1], given)]
    name, arguments = applied(statement)
    if name not in known:
        return []
    names, statements = known[name]
    return [e for s in statements for e in equations(filled(s, names, arguments), known, given)]


MEMBER = re.compile(r"result\.(?!now\b)(\w+)")
EXIT = re.compile(r"(?<![\w.'-])(\w+)\.new\b")
# Names that put an answer's numbers and the slices together; the laws of docs/ANSWERS.md say that nothing is lost by them.
TOGETHER = ("left", "left_of", "all_left")


def kind(left):
    """What an equation tells by its left side: the answer, a member of it, the bytes of a slice, all together; else None."""
    if left in ("result", "result.now"):
        return "answer"
    if MEMBER.fullmatch(left):
        return "member"
    if EXIT.fullmatch(left):
        return "bytes"
    return "together" if applied(left)[0] in TOGETHER else None


def determined(function, members, clause=None):
    """The kinds of the equations that determine something, whether for whatever was given; and what none determines: by all clauses, or by those
    that have one name or none."""
    known = records(function.name.split("::")[0])
    lefts = []
    for body in [body for name, body in function.ensures if not clause or name in (None, clause)]:
        for left, right, given in equations(body, known):
            if kind(left) and not UNKNOWN.search(right):
                lefts.append((left, given))
    text = " ; ".join(left for left, _ in lefts)
    told = {(kind(left), given) for left, given in lefts}
    left_open = [f"{name} at the end" for name in function.writes if name not in EXIT.findall(text)]
    if function.answers and not re.search(r"(?<![\w.'-])result(?:\.now)?(?![\w.'-])", text):
        left_open += [f"the answer's {m}" for m in members_of(function, members) if m not in MEMBER.findall(text)]
    return told, left_open
