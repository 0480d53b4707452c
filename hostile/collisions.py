"""Names whose hashes begin at one place of a table.

The table is that of the kit's hash maps, as the index of a scope's names has it: the length of a text and then each of its 16-bit units are folded, one after another, by a
multiplication to 128 bits whose halves are joined; the two halves of the hash are joined once more, and a text's first place is given
by the low bits. There is no key, so whoever writes a text can choose its names."""
import itertools

WORD = (1 << 64) - 1
MULTIPLIER = 0x9E3779B97F4A7C15
START = 0x243F6A8885A308D3
LETTERS = "abcdefghijklmnopqrstuvwxyz"
LENGTH = 6
RESERVED = {"delete", "export", "import", "public", "return", "static", "switch", "typeof"}


def folded(a, b):
    product = a * b
    return (product & WORD) ^ (product >> 64)


def begun():
    """The state after the length of a name."""
    return folded(START ^ LENGTH, MULTIPLIER ^ 16)


def with_unit(state, unit):
    """The state after one more ASCII unit, which is written as two bytes."""
    return folded(state ^ unit, MULTIPLIER ^ 4)


def colliding(count, bits):
    """This many names of six letters whose hashes end with as many zeros."""
    names, mask, state = [], (1 << bits) - 1, begun()
    units = [ord(letter) for letter in LETTERS]
    last = MULTIPLIER ^ 4
    for front in itertools.product(units, repeat=LENGTH - 1):
        before = state
        for unit in front:
            before = with_unit(before, unit)
        for unit in units:
            product = (before ^ unit) * last
            value = (product & WORD) ^ (product >> 64)
            if (value ^ (value >> 32)) & mask == 0:
                name = "".join(map(chr, front)) + chr(unit)
                if name not in RESERVED:
                    names.append(name)
                    if len(names) == count:
                        return names
    return names


def ordinary(count):
    """As many names of six letters, in order."""
    made = ("".join(name) for name in itertools.product(LETTERS, repeat=LENGTH))
    return list(itertools.islice((name for name in made if name not in RESERVED), count))
