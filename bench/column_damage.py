"""Ways to damage a column file: each takes a chance and a file in its parts, and gives bytes, which may be a file all the same."""
import collections
import struct

from column_files import BLOCK, CASCADES, FORMATS, HEAD, block, head_of, joined, packed, packed_tail, parts_of, runs_of, starts_of, \
    width_of, words

MOST = 2**64

# A whole file: its format and version, its values, and its parts.
File = collections.namedtuple("File", "name version values parts")


def file_of(name, version, values):
    return File(name, version, values, parts_of(name, version, values))


def with_byte(data, place, byte):
    return data[:place] + bytes([byte % 256]) + data[place + 1 :]


def with_bit(data, bit):
    return with_byte(data, bit // 8, data[bit // 8] ^ 1 << bit % 8)


def near(chance, byte):
    """Another byte: a neighbour, one with another bit, or one that some rule is about."""
    others = [(byte - 1) % 256, (byte + 1) % 256, byte ^ 1 << chance.randrange(8), 0, 1, 2, 7, 8, 63, 64, 65, 128, 255]
    return chance.choice([other for other in others if other != byte])


def cut_in(chance, data):
    """The data without its end, often cut at one of its ends."""
    return data[: chance.choice((0, 1, len(data) // 2, len(data) - 1, chance.randrange(len(data) + 1)))]


def with_blocks(chance, file, blocks):
    """The file with other blocks, mostly with the directory that says where they start."""
    starts = starts_of(file.name, file.version, blocks) if chance.random() < 0.8 else file.parts.starts
    return joined(file.parts._replace(starts=starts, blocks=blocks))


def flipped_bit(chance, file):
    data = joined(file.parts)
    return with_bit(data, chance.randrange(8 * len(data)))


def head_byte(chance, file):
    data, place = joined(file.parts), chance.randrange(HEAD)
    return with_byte(data, place, near(chance, data[place]))


def version(chance, file):
    """Another version's number, head or body."""
    other = parts_of(file.name, 3 - file.version, file.values)
    return chance.choice((
        lambda: joined(file.parts._replace(head=other.head)),
        lambda: joined(other._replace(head=file.parts.head)),
        lambda: with_byte(joined(file.parts), 4, chance.choice((0, 1, 2, 3, 255))),
        lambda: with_byte(joined(other), 4, file.version),
    ))()


def count(chance, file):
    """A count that lies, for the file as it is, and for one whose directory lies with it."""
    values, blocks = len(file.values), list(file.parts.blocks)
    if chance.random() < 0.3:
        more = chance.choice((-BLOCK, BLOCK))
        blocks = blocks + [b""] if more > 0 else blocks[:-1]
        starts = starts_of(file.name, file.version, blocks)
        kept = chance.choice((blocks, file.parts.blocks))
        return joined(file.parts._replace(head=file.parts.head[:8] + words([(values + more) % MOST]), starts=starts, blocks=kept))
    lie = chance.choice((
        values + chance.choice((-1, 1, -8, 8, 1 - BLOCK, BLOCK - 1, -BLOCK, BLOCK, -2 * BLOCK, 2 * BLOCK)),
        values ^ 1 << chance.randrange(64),
        chance.choice((0, 2**28 - 1, 2**28, 2**28 + 1, 2**32, 2**63, MOST - 1)),
        chance.randrange(8 * BLOCK),
    ))
    return joined(file.parts._replace(head=file.parts.head[:8] + words([lie % MOST])))


def static_width(chance, file):
    """Another static width, mostly with the blocks packed at it. Only one format may have it."""
    head, blocks = file.parts.head, file.parts.blocks
    other = chance.choice((near(chance, head[6]), (head[6] - 1) % 65, (head[6] + 1) % 65, chance.randrange(65)))
    if file.name == "static" and other <= 64 and chance.random() < 0.7:
        masked = [value & (1 << other) - 1 for value in file.values]
        blocks = [packed(other, masked[start : start + BLOCK]) for start in range(0, len(blocks) * BLOCK, BLOCK)]
    return joined(file.parts._replace(head=with_byte(head, 6, other), blocks=blocks))


def tail_width(chance, file):
    """Another tail width, mostly with the tail packed at it."""
    head, tail = file.parts.head, file.parts.tail
    other = chance.choice((near(chance, head[7]), (head[7] - 1) % 65, head[7] + 1, chance.randrange(65), chance.randrange(65, 256)))
    if chance.random() < 0.7:
        values = file.values[len(file.values) // BLOCK * BLOCK :]
        tail = packed_tail(other, [value & (1 << other) - 1 for value in values])
    return joined(file.parts._replace(head=with_byte(head, 7, other), tail=tail))


def bit_behind_tail(chance, file):
    """A bit that no value has: one that fills up the last byte, or one of a further byte."""
    used = len(file.values) % BLOCK * (file.parts.head[7] if file.version == 2 else 64)
    tail = file.parts.tail if used % 8 and chance.random() < 0.9 else file.parts.tail + b"\0"
    return joined(file.parts._replace(tail=with_bit(tail, chance.randrange(used, 8 * len(tail)))))


def prefix(chance, file):
    """A beginning that ends in a part that is drawn first, so that short parts have their turn."""
    parts = [file.parts.head, words(file.parts.starts), *file.parts.blocks, file.parts.tail]
    last = chance.choice([number for number, part in enumerate(parts) if part])
    return b"".join(parts[:last]) + cut_in(chance, parts[last])


def longer(chance, file):
    """One byte more or some, at the end or between two parts."""
    parts = [file.parts.head, words(file.parts.starts), *file.parts.blocks, file.parts.tail]
    place = chance.choice((len(parts), chance.randrange(len(parts))))
    added = chance.choice((b"\0", chance.randbytes(1), chance.randbytes(chance.choice((2, 7, 8, 128))), parts[place - 1] or b"\0"))
    return b"".join(parts[:place]) + added + b"".join(parts[place:])


def directory(chance, file):
    """Entries that are wrong, for blocks that are right."""
    starts, number = list(file.parts.starts), chance.randrange(len(file.parts.starts))
    data, entry, other = joined(file.parts), starts[number], chance.randrange(len(starts))
    kind = chance.randrange(8)
    if kind < 3:
        starts[number] = chance.choice((
            entry - 1, entry + 1, entry - 8, entry + 8, entry ^ 1 << chance.randrange(64), 0, entry - HEAD, entry - starts[0],
            starts[other], len(data), len(data) - 1, len(data) + 1, 2**32, 2**63, MOST - 1,
        )) % MOST
    elif kind == 3:
        starts[number], starts[other] = starts[other], starts[number]
    elif kind == 4:
        starts = [start + chance.choice((-8, -1, 1, 8)) for start in starts]
    elif kind == 5:
        starts = starts[:number] + starts[number + chance.choice((0, 1)) :] + starts[:chance.choice((0, 1))]
    elif kind == 6:
        place = HEAD + 8 * number + chance.randrange(8)
        return data[:place] + data[place + chance.choice((1, 2, 4, 8)) :]
    else:
        return data[: HEAD + 8 * number + chance.randrange(9)]
    return joined(file.parts._replace(starts=starts))


def moved_blocks(chance, file):
    """Blocks with a gap, in another order or shared, and a directory that tells where each of them really starts."""
    starts, blocks = list(file.parts.starts), list(file.parts.blocks)
    number, kind = chance.randrange(len(blocks)), chance.randrange(3)
    if kind == 0:
        gap = chance.randbytes(chance.choice((1, 8)))
        blocks[number] = gap + blocks[number]
        starts[number:] = [start + len(gap) for start in starts[number:]]
    elif kind == 1:
        order = chance.sample(range(len(blocks)), len(blocks))
        places = starts_of(file.name, 2, [blocks[at] for at in order])
        blocks, starts = [blocks[at] for at in order], [places[order.index(at)] for at in range(len(blocks))]
    else:
        gone = len(blocks.pop(number))
        starts = [start if at < number else starts[number - 1] if at == number else start - gone for at, start in enumerate(starts)]
    return joined(file.parts._replace(starts=starts, blocks=blocks))


def other_dynamic(chance, values):
    """A block with a width byte: at another width, whole or cut to it, or with another byte in front."""
    width = width_of(values)
    other = chance.choice((max(width - 1, 0), min(width + 1, 64), chance.randrange(65)))
    if chance.random() < 0.5:
        return bytes([other]) + packed(other, [value & (1 << other) - 1 for value in values])
    return bytes([near(chance, width)]) + packed(width, values)


def other_runs(chance, values):
    """A block of runs: another count, or other lengths and values in a run."""
    found = runs_of(values)
    number, kind = chance.randrange(len(found)), chance.randrange(7)
    value, length = found[number]
    many = chance.choice((0, 1, len(found) - 1, len(found) + 1, BLOCK, BLOCK + 1, 65535)) if kind == 0 else None
    if kind == 1:
        found[number] = value, chance.choice((0, length - 1, length + 1, BLOCK, BLOCK + 1, 65535))
    elif kind == 2:
        first = chance.randrange(length + 1)
        found[number : number + 1] = [(value, first), (value, length - first)]
    elif kind == 3:
        found[number] = found[number - 1][0], length
    elif kind == 4:
        found[number:number] = [(chance.choice((value, chance.getrandbits(64))), 0)]
    elif kind == 5:
        found[number:] = chance.choice((found[number + 1 :], found[number:] * 2))
    elif kind == 6:
        less = chance.randrange(length + 1)
        found[number], (before, longer_by) = (value, length - less), found[number - 1]
        if number:
            found[number - 1] = before, longer_by + less
    return struct.pack("<H", len(found) if many is None else many) + b"".join(struct.pack("<QH", *run) for run in found)


def other_cascade(chance, name, values):
    """A base and differences of which one or both are wrong, or are those of another block."""
    split, _ = CASCADES[name]
    base, differences = split(values)
    kind = chance.randrange(4)
    if kind == 0:
        base = chance.choice((base - 1, base + 1, 0, MOST - 1, MOST - max(differences), base ^ 1 << chance.randrange(64))) % MOST
    elif kind == 1:
        differences[0] = chance.choice((differences[0] + 1, MOST - 1, chance.getrandbits(64))) % MOST
    elif kind == 2:
        base, differences = (base - 1) % MOST, [(difference + 1) % MOST for difference in differences]
    if kind == 3:
        return words([base]) + (other_runs if name == "delta1+runs" else other_dynamic)(chance, differences)
    return words([base]) + CASCADES[name][1](differences)


def damaged_block(chance, file):
    """One block damaged in a way that its format knows, or cut, or longer, or with other bits."""
    blocks = list(file.parts.blocks)
    number = chance.randrange(len(blocks))
    values, whole, kind = file.values[number * BLOCK :][:BLOCK], blocks[number], chance.random()
    if kind < 0.1:
        blocks[number] = cut_in(chance, whole)
    elif kind < 0.2:
        place = chance.randrange(len(whole) + 1)
        blocks[number] = whole[:place] + chance.randbytes(chance.choice((1, 2, 8, 10, 128))) + whole[place:]
    elif kind < 0.3 and whole:
        blocks[number] = with_bit(whole, chance.randrange(min(8 * len(whole), chance.choice((8, 80, 8 * len(whole))))))
    elif file.name in CASCADES:
        blocks[number] = other_cascade(chance, file.name, values)
    elif file.name in ("dynamic", "runs"):
        blocks[number] = (other_runs if file.name == "runs" else other_dynamic)(chance, values)
    else:
        blocks[number] = block(file.name, file.parts.head[6], chance.sample(values, len(values)))
    return with_blocks(chance, file, blocks)


def other_format(chance, file):
    """The head or a block of another format."""
    name = chance.choice(FORMATS)
    if not file.parts.blocks or chance.random() < 0.5:
        head = head_of(name, file.version, *file.parts.head[6:8], len(file.values))
        return joined(file.parts._replace(head=head))
    blocks = list(file.parts.blocks)
    number = chance.randrange(len(blocks))
    values = file.values[number * BLOCK :][:BLOCK]
    blocks[number] = block(name, width_of(values), values)
    return with_blocks(chance, file, blocks)


def edits(chance, file):
    """One to four bytes or stretches that are changed, left out or put in, often near the front."""
    data = joined(file.parts)
    for _ in range(chance.randint(1, 4)):
        place = chance.randrange(min(len(data), chance.choice((16, 64, len(data)))) + 1)
        size = chance.choice((1, 2, 8, 10, 128))
        data = chance.choice((
            lambda: data[:place] + data[place + size :],
            lambda: data[:place] + chance.randbytes(size) + data[place:],
            lambda: with_byte(data, place, near(chance, data[place])) if place < len(data) else data,
        ))()
    return data


WAYS = (flipped_bit, head_byte, version, count, static_width, tail_width, bit_behind_tail, prefix, longer, other_format, edits)
WAYS_WITH_BLOCKS = (damaged_block, damaged_block, damaged_block)
WAYS_WITH_DIRECTORY = (directory, directory, moved_blocks)


def damaged(chance, file):
    """The file, damaged in one of the ways that it can be, and the way's name."""
    ways = WAYS
    if file.parts.blocks:
        ways += WAYS_WITH_BLOCKS
        if file.name == "static":
            ways += (static_width, static_width, static_width)
    if file.parts.starts:
        ways += WAYS_WITH_DIRECTORY
    way = chance.choice(ways)
    return way(chance, file), way.__name__
