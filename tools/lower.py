#!/usr/bin/env python3
"""Writes a module of WebAssembly whose addresses have 64 bits as one whose addresses have 32, which every engine takes.
usage: tools/lower.py IN OUT

In the code an address stays a number of 64 bits, and is cut to its low 32 when an instruction uses it. So the code,
the places in memory and the types of the exports are those of the first module. The memory of the second ends below
4 GiB. As long as the first module stays below that too, no address has more than 32 bits, nothing is cut off, and the
second does what the first does. Custom sections describe the code of the first, and are left out.

The kit's own target has such addresses, which half of the engines do not take. binaryen's lowering refuses loads of
vectors that the module has. What this script does is compared with the first module, instruction by instruction.

A module with anything that is not known here is refused, with status 1: imports, tables, several memories, a memory
that the code itself grows, and each instruction that is in no table below.
"""

import sys

MAGIC = b"\0asm\1\0\0\0"
WORD, WIDE, SINGLE, DOUBLE, VECTOR = 0x7F, 0x7E, 0x7D, 0x7C, 0x7B  # the types of values
TYPES = (WORD, WIDE, SINGLE, DOUBLE, VECTOR)
NO_TYPE, FUNCTION = 0x40, 0x60
GET, SET = b"\x20", b"\x21"  # of a local
WRAP = b"\xa7"  # i32.wrap_i64
CONST_WORD, CONST_WIDE, END = 0x41, 0x42, 0x0B
PAGES = 65536  # of 4 GiB
LAST_OFFSET = 2**32 - 1

# The sections that are known.
CUSTOM, TYPE, FUNCTIONS, MEMORY, GLOBAL, EXPORT, CODE, DATA, DATA_COUNT = 0, 1, 3, 5, 6, 7, 10, 11, 12
SAME_SECTIONS = (TYPE, FUNCTIONS, GLOBAL, EXPORT, DATA_COUNT)
OF_64_BITS, WITH_LIMIT = 4, 1  # flags of a memory

# Instructions of one byte. Those that compute have nothing after them.
BLOCKS = (0x02, 0x03, 0x04)
BRANCHES = 0x0E
WITH_NUMBER = (0x0C, 0x0D, 0x10, *range(0x20, 0x25), CONST_WORD, CONST_WIDE)
PLAIN = (0x00, 0x01, 0x05, END, 0x0F, 0x1A, 0x1B, *range(0x45, 0xC5))
CONST_SINGLE, CONST_DOUBLE = 0x43, 0x44
LOADS = range(0x28, 0x36)
STORES = dict(zip(range(0x36, 0x3F), (WORD, WIDE, SINGLE, DOUBLE, WORD, WORD, WIDE, WIDE, WIDE)))

# Instructions of two parts, after a byte of their own.
MORE, VECTORS = 0xFC, 0xFD
CONVERSIONS, COPY, FILL = range(0, 8), 10, 11
VECTOR_LOADS = (*range(0, 11), 92, 93)
VECTOR_STORE = 11
VECTOR_LANE_LOADS_AND_STORES = range(84, 92)
VECTOR_OF_16_BYTES = (12, 13)  # v128.const, i8x16.shuffle
VECTOR_LANES = range(21, 35)
VECTOR_PLAIN = (*range(14, 21), *range(35, 84), *range(94, 256))


class Unknown(Exception):
    """What is not known here."""


def known(is_known, what):
    if not is_known:
        raise Unknown(what)


class Reader:
    """The bytes of a module or of a part of it, from the first on."""

    def __init__(self, data):
        self.data, self.at = data, 0

    def is_at_end(self):
        return self.at == len(self.data)

    def take(self, count):
        known(count <= len(self.data) - self.at, "the module ends unexpectedly")
        self.at += count
        return self.data[self.at - count : self.at]

    def byte(self):
        return self.take(1)[0]

    def number(self):
        """A number without a sign, in groups of seven bits. One with a sign, of which only the end is sought, has the
        same groups."""
        value = shift = 0
        while True:
            group = self.byte()
            value |= (group & 127) << shift
            if group < 128:
                return value
            shift += 7
            known(shift < 70, "a number of more than 64 bits")

    def signed_number(self):
        """A number with a sign, which is not negative."""
        value = self.number()
        known(not self.data[self.at - 1] & 64, "a negative number")
        return value

    def part(self):
        """A part with its length before it."""
        return Reader(self.take(self.number()))


def number(value):
    """A number in groups of seven bits."""
    groups = bytearray()
    while value > 127:
        groups.append(value & 127 | 128)
        value >>= 7
    return bytes([*groups, value])


def signed_number(value):
    """A number that is not negative, if one with a sign is read: a group more if the last one looks negative."""
    groups = bytearray()
    while value > 63:
        groups.append(value & 127 | 128)
        value >>= 7
    return bytes([*groups, value])


def sized(data):
    return number(len(data)) + data


class Function:
    """The body of a function, which gets locals of its own for what lies above an address."""

    def __init__(self, parameters, body):
        self.body = body
        self.groups = [(body.number(), body.byte()) for _ in range(body.number())]
        known(all(kind in TYPES for _, kind in self.groups), "a local that is no number")
        self.first = parameters + sum(count for count, _ in self.groups)
        self.added = []

    def lowered(self):
        code = bytearray()
        while not self.body.is_at_end():
            code += self.instruction()
        groups = self.groups + [(1, kind) for kind in self.added]
        return sized(number(len(groups)) + b"".join(number(count) + bytes([kind]) for count, kind in groups) + code)

    def local(self, kind, order=0):
        """A local of this type, of which there may be several in use."""
        while self.added.count(kind) <= order:
            self.added.append(kind)
        places = [place for place, added in enumerate(self.added) if added == kind]
        return number(self.first + places[order])

    def instruction(self):
        begin = self.body.at
        code = self.body.byte()
        if code in LOADS:
            return WRAP + bytes([code]) + self.place()
        if code in STORES:
            return self.cut_below(STORES[code]) + bytes([code]) + self.place()
        if code == MORE:
            changed = self.bulk()
        elif code == VECTORS:
            changed = self.vector()
        else:
            changed = self.pass_over(code)
        return changed or self.body.data[begin : self.body.at]

    def pass_over(self, code):
        """What follows an instruction that stays as it is."""
        if code in BLOCKS:
            kind = self.body.byte()
            known(kind in (NO_TYPE, *TYPES), "a block with a type of its own")
        elif code == BRANCHES:
            for _ in range(self.body.number() + 1):
                self.body.number()
        elif code in WITH_NUMBER:
            self.body.number()
        elif code in (CONST_SINGLE, CONST_DOUBLE):
            self.body.take(4 if code == CONST_SINGLE else 8)
        else:
            known(code in PLAIN, f"the instruction {code:#04x}")

    def place(self):
        """The alignment and the offset of a load or a store."""
        alignment, offset = self.body.number(), self.body.number()
        known(alignment < 64, "another memory")
        known(offset <= LAST_OFFSET, "an offset above 4 GiB")
        return number(alignment) + number(offset)

    def cut_below(self, kind):
        """Cuts the address that lies below a value of this type."""
        value = self.local(kind)
        return SET + value + WRAP + GET + value

    def bulk(self):
        code = self.body.number()
        if code in CONVERSIONS:
            return None
        known(code in (COPY, FILL), f"the instruction 0xfc {code}")
        memories = self.body.take(2 if code == COPY else 1)
        known(not any(memories), "another memory")
        length = self.local(WIDE)
        # a place to copy from is an address too, and a byte to fill with is none
        second = self.local(WIDE, 1) if code == COPY else self.local(WORD)
        cut = WRAP if code == COPY else b""
        lowered = SET + length + SET + second + WRAP + GET + second + cut + GET + length + WRAP
        return lowered + bytes([MORE]) + number(code) + memories

    def vector(self):
        code = self.body.number()
        head = bytes([VECTORS]) + number(code)
        if code in VECTOR_LOADS:
            return WRAP + head + self.place()
        if code == VECTOR_STORE:
            return self.cut_below(VECTOR) + head + self.place()
        if code in VECTOR_LANE_LOADS_AND_STORES:
            return self.cut_below(VECTOR) + head + self.place() + self.body.take(1)
        if code in VECTOR_OF_16_BYTES:
            self.body.take(16)
        elif code in VECTOR_LANES:
            self.body.take(1)
        else:
            known(code in VECTOR_PLAIN, f"the instruction 0xfd {code}")
        return None


def parameter_counts(section):
    """How many parameters each type of a function has."""
    counts = []
    for _ in range(section.number()):
        known(section.byte() == FUNCTION, "a type that is no function's")
        parameters, results = section.take(section.number()), section.take(section.number())
        known(set(parameters + results) <= set(TYPES), "a parameter or a result that is no number")
        counts.append(len(parameters))
    return counts


def lower_memory(section):
    known(section.number() == 1, "several memories")
    flags, least = section.byte(), section.number()
    known(flags in (OF_64_BITS, OF_64_BITS | WITH_LIMIT), "a memory without addresses of 64 bits")
    known(least <= PAGES, "a memory of more than 4 GiB")
    most = [min(section.number(), PAGES)] if flags & WITH_LIMIT else []
    return number(1) + bytes([flags & WITH_LIMIT]) + b"".join(map(number, [least, *most]))


def lower_code(section, parameters):
    count = section.number()
    known(count == len(parameters), "another number of bodies than of functions")
    return number(count) + b"".join(Function(its, section.part()).lowered() for its in parameters)


def lower_data(section):
    count = section.number()
    segments = []
    for _ in range(count):
        known(section.number() == 0 and section.byte() == CONST_WIDE, "a segment without a place")
        place = section.signed_number()
        known(place < 2**31 and section.byte() == END, "a segment whose place is computed")
        put = bytes([CONST_WORD]) + signed_number(place) + bytes([END])
        segments.append(number(0) + put + sized(section.part().data))
    return number(count) + b"".join(segments)


class Module:
    """A module, whose sections come in the order of their numbers: the types of functions before their bodies."""

    def __init__(self, data):
        known(data.startswith(MAGIC), "no module")
        self.data, self.types, self.parameters = data, [], []

    def lowered(self):
        module, lowered = Reader(self.data), bytearray(MAGIC)
        module.take(len(MAGIC))
        while not module.is_at_end():
            kind, section = module.byte(), module.part()
            if kind != CUSTOM:
                lowered += bytes([kind]) + sized(self.section(kind, section))
        return bytes(lowered)

    def section(self, kind, section):
        if kind == MEMORY:
            lowered = lower_memory(section)
        elif kind == CODE:
            lowered = lower_code(section, self.parameters)
        elif kind == DATA:
            lowered = lower_data(section)
        else:
            self.pass_over(kind, section)
            return section.data
        known(section.is_at_end(), f"a section {kind} that goes on")
        return lowered

    def pass_over(self, kind, section):
        """What has to be known of a section that stays as it is."""
        known(kind in SAME_SECTIONS, f"the section {kind}")
        if kind == TYPE:
            self.types = parameter_counts(section)
        elif kind == FUNCTIONS:
            numbers = [section.number() for _ in range(section.number())]
            known(all(it < len(self.types) for it in numbers), "a function without a type")
            self.parameters = [self.types[it] for it in numbers]


def main(words):
    if len(words) != 2:
        sys.exit(__doc__.splitlines()[1])
    with open(words[0], "rb") as file:
        data = file.read()
    try:
        lowered = Module(data).lowered()
    except Unknown as unknown:
        sys.exit(f"tools/lower.py: {words[0]}: not known: {unknown}")
    with open(words[1], "wb") as file:
        file.write(lowered)


if __name__ == "__main__":
    main(sys.argv[1:])
