"""Images of compiled scripts, made by hand, and damaged ones."""
import random
import struct

DECLARATIONS, RETURN, ONE, POP = 0x6F, 0x64, 0x05, 0x70
VAR, GLOBAL_SLOT = 1, 0


def number(width, value):
    return value.to_bytes(width, "little")


def items(each):
    return number(4, len(each)) + b"".join(each)


def text(name):
    return items([struct.pack("<H", unit) for unit in struct.unpack(f"<{len(name)}H", name.encode("utf-16-le"))])


def extent(start, end):
    return number(4, start) + number(4, end)


def function_part(end, scopes, code, notes=(), inner=()):
    """A script's own part: a declaration without name or parameters, from offset 0 on."""
    return (
        extent(0, end) + b"\0" + b"\0" + number(4, 0) + items(scopes)
        + number(8, len(code)) + code + items(list(notes)) + items(list(inner))
    )


def global_scope(names):
    """The scope Global, with a var name for each of the first texts."""
    bindings = [number(4, atom) + bytes([VAR, GLOBAL_SLOT]) for atom in range(names)]
    return b"\0" + b"\0" + items(bindings) + number(4, 0)


def image(names=(), code=None, notes=()):
    """The image of a script without functions: its var names, and its code."""
    if code is None:
        code = bytes([DECLARATIONS, 0, 0, 0, 0, RETURN])
    top = function_part(0, [global_scope(len(names))], code, notes)
    return b"STN1" + items([text(name) for name in names]) + top + items([])


def note(start, end, depth):
    return number(8, start) + number(8, end) + number(4, depth)


def many_notes(count):
    """The image of as many pairs of a One and a Pop as try notes, most of them around most of the code, and every second one too deep."""
    size = 2 * count
    notes = [note(n, size - n % 3 * 2, n % 2 * 2) for n in range(count)]
    return image(code=bytes([ONE, POP]) * count + bytes([RETURN]), notes=notes)


def damaged(whole, seed, count):
    """Bytes that are near an image: one changed, cut, made longer, a count blown up."""
    chance = random.Random(seed)
    for _ in range(count):
        data = bytearray(whole)
        kind = chance.randrange(5)
        at = chance.randrange(len(data))
        if kind == 0:
            data[at] = chance.randrange(256)
        elif kind == 1:
            del data[at:]
        elif kind == 2:
            data += bytes(chance.randrange(256) for _ in range(chance.randrange(1, 9)))
        elif kind == 3:
            data[at : at + 4] = b"\xff\xff\xff\xff"[: len(data) - at]
        else:
            data[at : at + 4] = number(4, 1 << chance.randrange(32))[: len(data) - at]
        yield bytes(data)
