"""A plain reader of column files of both versions, by the rules of docs/FORMATS.md. It shares no code with the program."""
import functools
import struct

NAMES = "plain static dynamic runs delta1+dynamic delta16+dynamic reference+dynamic delta1+runs".split()
BLOCK = 1024
HEAD = 16
MOST = 2**64
MAX_ROWS = 2**28
PLAIN, STATIC, DYNAMIC, RUNS, REFERENCE, DELTA1_RUNS = 0, 1, 2, 3, 6, 7


def words(data):
    return list(struct.unpack(f"<{len(data) // 8}Q", data))


def word_at(data, place):
    """The number in eight bytes, or nothing if they are cut off."""
    return struct.unpack_from("<Q", data, place)[0] if place + 8 <= len(data) else None


def width_of(values):
    return max(values, default=0).bit_length()


def numbers(data, width, count):
    """So many numbers of a width, one after the other from bit 0 on, and what is left of the bits."""
    bits, mask, found = int.from_bytes(data, "little"), (1 << width) - 1, []
    for _ in range(count):
        found.append(bits & mask)
        bits >>= width
    return found, bits


# Mutated files share most of their blocks.
@functools.lru_cache(maxsize=4096)
def unpacked(width, data):
    """The values that `width` times 128 bytes are, or nothing if they are fewer."""
    if len(data) < 128 * width:
        return None
    packed, values = words(data), [0] * BLOCK
    for strand in range(16):
        values[strand::16], _ = numbers(struct.pack(f"<{width}Q", *packed[strand::16]), width, 64)
    return values


def packed_at(width, data, place):
    return unpacked(width, data[place : place + 128 * width])


def dynamic(data, place):
    """The length and the values of the block that stands at a place, or nothing if there is none. So do those below."""
    if place >= len(data) or data[place] > 64:
        return None
    values = packed_at(data[place], data, place + 1)
    if values is None or width_of(values) != data[place]:
        return None
    return 1 + 128 * data[place], values


def runs(data, place):
    if place + 2 > len(data):
        return None
    (count,) = struct.unpack_from("<H", data, place)
    if not 1 <= count <= BLOCK or place + 2 + 10 * count > len(data):
        return None
    values, last = [], None
    for value, length in struct.iter_unpack("<QH", data[place + 2 : place + 2 + 10 * count]):
        if length == 0 or value == last or len(values) + length > BLOCK:
            return None
        values += [value] * length
        last = value
    return (2 + 10 * count, values) if len(values) == BLOCK else None


def after_delta(distance, base, differences):
    """The values of a base and differences, or nothing if they are those of no block."""
    if differences[0] != 0:
        return None
    values = []
    for place, difference in enumerate(differences):
        before = base if place < distance else values[place - distance]
        values.append((before + difference) % MOST)
    return values


def after_reference(base, differences):
    """The same for a least value and the differences to it."""
    if min(differences) != 0 or base + max(differences) >= MOST:
        return None
    return [base + difference for difference in differences]


def cascade(tag, data, place):
    base = word_at(data, place)
    inner = None if base is None else (runs if tag == DELTA1_RUNS else dynamic)(data, place + 8)
    if inner is None:
        return None
    if tag == REFERENCE:
        values = after_reference(base, inner[1])
    else:
        values = after_delta(16 if NAMES[tag] == "delta16+dynamic" else 1, base, inner[1])
    return None if values is None else (8 + inner[0], values)


def block(tag, width, data, place):
    if tag == PLAIN:
        rest = data[place : place + 8 * BLOCK]
        return (8 * BLOCK, words(rest)) if len(rest) == 8 * BLOCK else None
    if tag == STATIC:
        values = packed_at(width, data, place)
        return None if values is None else (128 * width, values)
    if tag == DYNAMIC:
        return dynamic(data, place)
    if tag == RUNS:
        return runs(data, place)
    return cascade(tag, data, place)


def tail_of(words_only, width, count, rest):
    """The values that so many bytes are at a width, or nothing if they are no tail."""
    if len(rest) != (count * width + 7) // 8:
        return None
    values, unused = numbers(rest, width, count)
    if unused != 0 or not words_only and width_of(values) != width:
        return None
    return values


def head_of(data):
    """The version, the tag, the two widths and the count, or nothing if there is no lawful head."""
    if len(data) < HEAD or data[:4] != b"MCOL":
        return None
    version, tag, width, last = data[4:8]
    count = word_at(data, 8)
    if version not in (1, 2) or tag > 7 or width > (64 if tag == STATIC else 0) or count > MAX_ROWS:
        return None
    if version == 1:
        return None if last != 0 else (1, tag, width, 64, count)
    if last != 64 if tag == PLAIN else last > 64:
        return None
    return 2, tag, width, last, count


def read(data):
    """The format's name and the values of a file, or its first fault. Of very many zeros that take no byte it gives none."""
    head = head_of(data)
    if head is None:
        return "bad header"
    version, tag, width, tail_width, count = head
    many, rest = divmod(count, BLOCK)
    directory = version == 2 and tag >= DYNAMIC
    place, values = HEAD + 8 * many * directory, []
    if tag == STATIC and width == 0:
        values, many = [0] * (many * BLOCK if many < 100 else 0), 0
    for number in range(many):
        if directory and word_at(data, HEAD + 8 * number) != place:
            return f"bad directory {number}"
        found = block(tag, width, data, place)
        if found is None:
            return f"bad block {number}"
        place += found[0]
        values += found[1]
    if tag == STATIC and width_of(values) != width:
        return "bad width"
    tail = tail_of(version == 1 or tag == PLAIN, tail_width, rest, data[place:])
    return "bad tail" if tail is None else (NAMES[tag], count, values + tail)


def said(data):
    """What is to be printed of a file: its format, count and sum, or its first fault."""
    found = read(data)
    return found if isinstance(found, str) else f"{found[0]} {found[1]} {sum(found[2]) % MOST}"
