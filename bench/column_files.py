"""A plain encoder of column files in both versions, by the rules of docs/FORMATS.md. It shares no code with the program."""
import collections
import itertools
import struct

FORMATS = "plain static dynamic runs delta1+dynamic delta16+dynamic reference+dynamic delta1+runs".split()  # by their tags
BLOCK = 1024
STRANDS = 16
HEAD = 16

# A file in its parts: the head's bytes, the directory's numbers, the bytes of each whole block, and those of the tail.
Parts = collections.namedtuple("Parts", "head starts blocks tail")


def words(values):
    """Eight bytes for each number, the little end first."""
    return struct.pack(f"<{len(values)}Q", *values)


def width_of(values):
    """The least width that holds all values, 0 if there are none."""
    return max(values, default=0).bit_length()


def packed(width, values):
    """A block at a width: each strand is one long number, whose words stand between those of the other strands."""
    strands = [sum(value << row * width for row, value in enumerate(values[strand::STRANDS])) for strand in range(STRANDS)]
    return words([strands[strand] >> 64 * word & 2**64 - 1 for word in range(width) for strand in range(STRANDS)])


def dynamic(values):
    return bytes([width_of(values)]) + packed(width_of(values), values)


def runs_of(values):
    """Each run as its value and its length."""
    return [(value, len(list(run))) for value, run in itertools.groupby(values)]


def runs(values):
    found = runs_of(values)
    return struct.pack("<H", len(found)) + b"".join(struct.pack("<QH", value, length) for value, length in found)


def delta(distance, values):
    """The first value, and the differences to the value `distance` places before, or to the first one."""
    before = [values[0]] * distance + values[:-distance]
    return values[0], [(value - earlier) % 2**64 for value, earlier in zip(values, before)]


def reference(values):
    """The least value, and the differences to it."""
    return min(values), [value - min(values) for value in values]


# The cascades: what makes a base and differences of a block, and what encodes the differences.
CASCADES = {
    "delta1+dynamic": (lambda values: delta(1, values), dynamic),
    "delta16+dynamic": (lambda values: delta(STRANDS, values), dynamic),
    "reference+dynamic": (reference, dynamic),
    "delta1+runs": (lambda values: delta(1, values), runs),
}


def block(name, width, values):
    """One whole block. The width is the column's, which only the format `static` has."""
    if name in CASCADES:
        split, encode = CASCADES[name]
        base, differences = split(values)
        return words([base]) + encode(differences)
    return {"plain": words, "static": lambda values: packed(width, values), "dynamic": dynamic, "runs": runs}[name](values)


def packed_tail(width, values):
    """Values one after the other, each with as many bits as the width says. The bits behind the last value are 0."""
    number = sum(value << place * width for place, value in enumerate(values))
    return number.to_bytes((len(values) * width + 7) // 8, "little")


def head_of(name, version, width, tail_width, count):
    """The head. In version 1 it doesn't say the tail's width."""
    return b"MCOL" + bytes([version, FORMATS.index(name), width, tail_width if version == 2 else 0]) + words([count])


def starts_of(name, version, blocks):
    """The directory: where each block starts. There is none in version 1, nor if all blocks of a column have one length."""
    if version == 1 or name in ("plain", "static"):
        return []
    return list(itertools.accumulate(map(len, blocks), initial=HEAD + 8 * len(blocks)))[:-1]


def parts_of(name, version, values):
    """The parts of the one file of a column in a format and a version."""
    whole = len(values) - len(values) % BLOCK
    tail = values[whole:]
    width = width_of(values[:whole]) if name == "static" else 0
    tail_width = 64 if version == 1 or name == "plain" else width_of(tail)
    blocks = [block(name, width, values[start : start + BLOCK]) for start in range(0, whole, BLOCK)]
    head = head_of(name, version, width, tail_width, len(values))
    return Parts(head, starts_of(name, version, blocks), blocks, packed_tail(tail_width, tail))


def joined(parts):
    return parts.head + words(parts.starts) + b"".join(parts.blocks) + parts.tail


def column_file(name, version, values):
    """The one file of a column in a format and a version."""
    return joined(parts_of(name, version, values))
