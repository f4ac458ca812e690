"""Lowers a WebAssembly module with a memory and a table of 64-bit addresses to one of 32 bits: an address is cut where it is used, and
everything else stays. Debian's binaryen has no such step for the tables that today's clang makes.

It knows the instructions that clang emits for lime1; another one is an error. An address above 2^32 is taken modulo 2^32: the heap hands
out none (page/heap.c).
"""

WRAP, EXTEND, EXTEND_SIGNED = b"\xa7", b"\xad", b"\xac"
I32, I64, F32, F64 = 0x7F, 0x7E, 0x7D, 0x7C
LOADS, STORES = range(0x28, 0x36), range(0x36, 0x3F)
# the type of the value that each store takes
STORED = dict(zip(STORES, [I32, I64, F32, F64, I32, I32, I64, I64, I64]))
# how many numbers follow an instruction; all others of these ranges have none
NUMBERS = {0x0C: 1, 0x0D: 1, 0x10: 1, 0x20: 1, 0x21: 1, 0x22: 1, 0x23: 1, 0x24: 1, 0x41: 1, 0x42: 1, 0xD2: 1, **{it: 2 for it in (*LOADS, *STORES)}, 0x3F: 1, 0x40: 1, 0x11: 2}
BARE = {0x00, 0x01, 0x05, 0x0B, 0x0F, 0x1A, 0x1B, *range(0x45, 0xC5)}


def number(data, at):
    """The number at a place that has no sign, and the place behind it."""
    value = shift = 0
    while True:
        byte = data[at]
        value |= (byte & 127) << shift
        at, shift = at + 1, shift + 7
        if byte < 128:
            return value, at


def packed(value):
    """A number without a sign as bytes."""
    out = bytearray()
    while True:
        value, byte = value >> 7, value & 127
        out.append(byte | (128 if value else 0))
        if not value:
            return bytes(out)


def behind(data, at, count):
    """The place behind so many numbers."""
    for _ in range(count):
        _, at = number(data, at)
    return at


def instruction(data, at):
    """The place behind an instruction."""
    code = data[at]
    if code in BARE:
        return at + 1
    if code in NUMBERS:
        return behind(data, at + 1, NUMBERS[code])
    if code in (0x02, 0x03, 0x04):
        return at + 2 if data[at + 1] in (0x40, I32, I64, F32, F64) else behind(data, at + 1, 1)
    if code == 0x0E:
        count, at = number(data, at + 1)
        return behind(data, at, count + 1)
    if code in (0x43, 0x44):
        return at + (5 if code == 0x43 else 9)
    if code == 0xFC:
        part, at = number(data, at + 1)
        return behind(data, at, {10: 2, 11: 1}.get(part, 0)) if part < 8 or part in (10, 11) else unknown(code, part)
    return unknown(code, 0)


def unknown(code, part):
    raise ValueError(f"bin/lowered.py: an instruction that it does not know: {code:#x} {part}")


def short(data, at):
    """An access to memory with its offset in as few bytes as it takes: the linker leaves ten, of which 32 bits have no use."""
    align, place = number(data, at + 1)
    offset, _ = number(data, place)
    if offset >= 1 << 32:
        raise ValueError("bin/lowered.py: an offset of more than 32 bits")
    return bytes([data[at]]) + packed(align) + packed(offset)


def constant(value):
    """A constant of 32 bits: its sign is the highest bit of its last byte."""
    out = bytearray(packed(value))
    if out[-1] & 64:
        out[-1] |= 128
        out.append(0)
    return b"\x41" + bytes(out)


def limits(data, at):
    """Limits with 32-bit addresses in the place of those at a place, and the place behind."""
    flags = data[at]
    least, at = number(data, at + 1)
    most = b""
    if flags & 1:
        value, at = number(data, at)
        most = packed(min(value, 65536))
    return bytes([flags & ~4]) + packed(least) + most, at


class Scratch:
    """Further locals of a function, which hold a value while the address below it is cut."""

    def __init__(self, first):
        # two of 64 bits for memory.copy
        self.place = {kind: first + i for i, kind in enumerate((I32, F32, F64, I64))}
        self.second = first + 4

    def declared(self):
        return b"".join(packed(count) + bytes([kind]) for count, kind in ((1, I32), (1, F32), (1, F64), (2, I64)))

    def cut_below(self, *kinds):
        """Cuts what stands below values of these types, which are cut too where they are of 64 bits and more than one."""
        places, used = [], set()
        for kind in kinds:
            places.append(self.second if kind in used else self.place[kind])
            used.add(kind)
        takes = b"".join(b"\x21" + packed(it) for it in reversed(places))
        gives = b"".join(b"\x20" + packed(it) + (WRAP if kind == I64 and len(kinds) > 1 else b"") for it, kind in zip(places, kinds))
        return takes + WRAP + gives


def lowered_one(data, at, end, scratch):
    """An instruction with its address cut."""
    code, text = data[at], data[at:end]
    if code in LOADS:
        return WRAP + short(data, at)
    if code in STORES:
        return scratch.cut_below(STORED[code]) + short(data, at)
    if code == 0x11:
        return WRAP + text
    if code == 0x3F:
        return text + EXTEND
    if code == 0x40:
        return WRAP + text + EXTEND_SIGNED
    if code == 0xFC and data[at + 1] == 10:
        return scratch.cut_below(I64, I64) + text
    if code == 0xFC and data[at + 1] == 11:
        return scratch.cut_below(I32, I64) + text
    return text


def function(body, parameters):
    """The body of a function with so many parameters, lowered."""
    groups, at = number(body, 0)
    start, count = at, parameters
    for _ in range(groups):
        some, at = number(body, at)
        count, at = count + some, at + 1
    scratch = Scratch(count)
    out = [packed(groups + 4), body[start:at], scratch.declared()]
    while at < len(body):
        end = instruction(body, at)
        out.append(lowered_one(body, at, end, scratch))
        at = end
    return b"".join(out)


def segments(data, has_memory_bytes):
    """Segments of data or of elements, whose places are constants, lowered."""
    count, at = number(data, 0)
    out = [packed(count)]
    for _ in range(count):
        start = at
        flags, at = number(data, at)
        if flags != 0 or data[at] != 0x42:
            raise ValueError("bin/lowered.py: a segment of another form")
        place, end = number(data, at + 1)
        out += [data[start:at], constant(place)]
        size, at = number(data, end + 1)
        end_of_items = at + size if has_memory_bytes else behind(data, at, size)
        out.append(data[end:end_of_items])
        at = end_of_items
    return b"".join(out)


def section(kind, data, shapes):
    """The contents of a section, lowered; `shapes` has what is known of types and functions."""
    if kind == 1:
        shapes["types"] = types(data)
    elif kind == 3:
        count, at = number(data, 0)
        for _ in range(count):
            of, at = number(data, at)
            shapes["functions"].append(shapes["types"][of])
    elif kind in (4, 5):
        head = 2 if kind == 4 else 1
        new, at = limits(data, head)
        return data[:head] + new + data[at:]
    elif kind in (9, 11):
        return segments(data, kind == 11)
    elif kind == 10:
        return code(data, shapes["functions"])
    return data


def types(data):
    """How many parameters each type of a function has."""
    count, at = number(data, 0)
    found = []
    for _ in range(count):
        parameters, at = number(data, at + 1)
        results, at = number(data, at + parameters)
        at += results
        found.append(parameters)
    return found


def code(data, functions):
    """All bodies, lowered."""
    count, at = number(data, 0)
    out = [packed(count)]
    for i in range(count):
        size, at = number(data, at)
        body = function(data[at:at + size], functions[i])
        out += [packed(len(body)), body]
        at += size
    return b"".join(out)


def lowered(data):
    """The module with addresses of 32 bits. It imports nothing."""
    out, at, shapes = [data[:8]], 8, {"types": [], "functions": []}
    while at < len(data):
        kind = data[at]
        size, at = number(data, at + 1)
        if kind == 2 and size > 1:
            raise ValueError("bin/lowered.py: the module imports something")
        if kind not in (0, 12):
            new = section(kind, data[at:at + size], shapes)
            out += [bytes([kind]), packed(len(new)), new]
        at += size
    return b"".join(out)
