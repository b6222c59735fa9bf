"""Stored queries and catalogue lists, read plainly: as the selector that they read as, and as hex with a remark a line."""
import re
import struct

# What the body of each part holds, in its order: bytes of a number, ASCII text, or parts up to its end.
NUMBER2, NUMBER4, FLOAT4, BYTES8, TEXT, PARTS = "number2", "number4", "float4", "bytes8", "text", "parts"
SHAPES = {
    0x01: ("Term", [PARTS]),
    0x02: ("Phrase", [PARTS]),
    0x03: ("Boolean", [PARTS]),
    0x04: ("Boost", [FLOAT4, PARTS]),
    0x05: ("ConstantScore", [PARTS]),
    0x06: ("MatchAll", []),
    0x07: ("MatchNone", []),
    0x08: ("whole range", [PARTS]),
    0x09: ("float range", [PARTS]),
    0x10: ("field", [TEXT]),
    0x11: ("text", [TEXT]),
    0x12: ("word", [NUMBER4, TEXT]),
    0x13: ("minimum", [NUMBER2]),
    0x14: ("value", [BYTES8]),
    0x20: ("Must", [PARTS]),
    0x21: ("Should", [PARTS]),
    0x22: ("MustNot", [PARTS]),
    0x23: ("Filter", [PARTS]),
    0x30: ("open", []),
    0x31: ("included", [BYTES8]),
    0x32: ("excluded", [BYTES8]),
    0x40: ("record", [PARTS]),
    0x41: ("entry of a word", [PARTS]),
    0x44: ("entry of a whole number", [PARTS]),
    0x45: ("entry of a float", [PARTS]),
}
WIDTHS = {NUMBER2: 2, NUMBER4: 4, FLOAT4: 4, BYTES8: 8}
FLOAT_OWNERS = (0x09, 0x45)


def part(tag, body):
    return bytes([tag]) + len(body).to_bytes(2, "big") + body


def parts(data):
    """The parts that the bytes are, one behind the other, as (tag, body)."""
    found, at = [], 0
    while at < len(data):
        length = int.from_bytes(data[at + 1 : at + 3], "big")
        assert at + 3 + length <= len(data), "a part that breaks off"
        found.append((data[at], data[at + 3 : at + 3 + length]))
        at += 3 + length
    return found


# ---- as a selector


def shortest(bits):
    """A boost as one would type it."""
    value = struct.unpack(">f", bits)[0]
    for digits in range(1, 10):
        text = f"{value:.{digits}g}"
        if struct.pack(">f", float(text)) == bits:
            break
    if "e" not in text:
        return text
    return f"{value:.0f}" if abs(value) >= 1 else text


def quoted(text):
    plain = re.fullmatch(r"""[^\s!():^"~\[\]{}*?\\+\-][^\s!():^"~\[\]{}*?\\]*""", text)
    if plain and text not in ("AND", "OR", "NOT") and not text.startswith(("&&", "||")):
        return text
    return '"' + text.replace("\\", "\\\\").replace('"', '\\"') + '"'


SIGNS = {0x20: "+", 0x21: "", 0x22: "-"}


def selector(query, field):
    """The selector that a stored query reads as, where clauses that name no field have this one; `nothing` for MatchNone."""
    [(tag, body)] = parts(query)
    if tag == 0x07:
        return "nothing"
    if tag == 0x03:
        clauses = parts(body)
        assert clauses[0] == (0x13, b"\0\0"), "a minimum that no text makes"
        return " ".join(SIGNS[kind] + within(inner, field) for kind, inner in clauses[1:])
    return within(query, field)


def within(query, field):
    """The same as one clause of more."""
    [(tag, body)] = parts(query)
    if tag == 0x03:
        return f"({selector(query, field)})"
    if tag == 0x04:
        return f"{within(body[4:], field)}^{shortest(body[:4])}"
    (_, name), *words = parts(body)
    prefix = "" if name == field else name.decode() + ":"
    if tag == 0x01:
        return prefix + quoted(words[0][1].decode())
    assert tag == 0x02, "a query that no text makes"
    assert [w[:4] for _, w in words] == [n.to_bytes(4, "big") for n in range(len(words))]
    return prefix + '"' + " ".join(w[4:].decode() for _, w in words) + '"'


# ---- as hex


def said(kind, data, owner):
    if kind == TEXT:
        return f"`{data.decode()}`"
    if kind == FLOAT4:
        return shortest(data)
    if kind == BYTES8 and owner in FLOAT_OWNERS:
        return repr(struct.unpack(">d", data)[0])
    return str(int.from_bytes(data, "big", signed=kind == BYTES8))


def lines(data, depth=0, owner=None):
    """(hex, remark) for each part: its header and what it holds that is no part; then its parts, further in."""
    found = []
    for tag, body in parts(data):
        name, shape = SHAPES[tag]
        cells, remark, at = [f"{tag:02X}", f"{len(body):04X}"], [name], 0
        for kind in shape:
            if kind != PARTS:
                upto = at + WIDTHS.get(kind, len(body) - at)
                cells.append(body[at:upto].hex().upper())
                remark.append(said(kind, body[at:upto], owner))
                at = upto
        if shape[-1:] == [PARTS]:
            remark.append(f"({len(body)} bytes)")
        found.append(("  " * depth + " ".join(c for c in cells if c), " ".join(remark)))
        if shape[-1:] == [PARTS]:
            found += lines(body[at:], depth + 1, tag)
        else:
            assert at == len(body), "bytes left over"
    return found


def dump(data):
    rows = lines(data)
    width = max(len(hex_) for hex_, _ in rows) + 2
    return "\n".join(f"{hex_:<{width}}{remark}" for hex_, remark in rows)
