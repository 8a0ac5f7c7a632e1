"""Makes images for measurements: functions of listed amd64 instructions with jumps, calls and stack depths, and their function table; and
dumps of long stacks over them."""
import os
import random
import runpy
import struct

HERE = os.path.dirname(os.path.realpath(__file__))
VECTORS = os.path.join(os.path.dirname(HERE), 'vectors')
TEXT_AT = 0x400000
PUSH, POP, RET = b'\x50', b'\x58', b'\xc3'


def straight_instructions():
    """The listed instructions that go on behind themselves and leave the stack pointer."""
    with open(os.path.join(VECTORS, 'amd64', 'listed.want')) as lines:
        parts = [line.split(None, 2)[1:] for line in lines]
    chosen = []
    for code, text in parts:
        name, _, operands = text.strip().removeprefix('LOCK; ').partition(' ')
        leaves = name.startswith('J') or name in ('CALL', 'RET', 'UNDEF', 'SYSCALL', 'PUSHQ', 'POPQ')
        if not leaves and 'SP' not in operands.split(', '):
            chosen.append(bytes.fromhex(code))
    return chosen


def body(draw, listed, size):
    """Instructions between a PUSHQ and its POPQ; a call as None, to be filled in once the entries are known."""
    code, taken = [PUSH], 1
    while taken < size - 2:
        kind = draw.random()
        if kind < 0.05:
            over = draw.choice(listed)
            step = [b'\x74' + bytes([len(over)]), over]
        elif kind < 0.10:
            step = [None]
        else:
            step = [draw.choice(listed)]
        code += step
        taken += sum(5 if one is None else len(one) for one in step)
    return code + [POP, RET]


def varint(number):
    out = bytearray()
    while number > 127:
        out.append(128 | number & 127)
        number >>= 7
    return bytes(out) + bytes([number])


def pc_table(runs):
    """Runs of a value and the place where it ends."""
    table, value, place = b'', -1, 0
    for next_value, end in runs:
        change = next_value - value
        table += varint(2 * change if change >= 0 else -2 * change - 1) + varint(end - place)
        value, place = next_value, end
    return table + b'\0'


def tables_of(code, line):
    """The depth, file and line tables of a function: a line for each three instructions."""
    ends, place = [], 0
    for one in code:
        place += 5 if one is None else len(one)
        ends.append(place)
    lines = [(line + k // 3, ends[min(k + 2, len(ends) - 1)]) for k in range(0, len(ends), 3)]
    return pc_table([(0, 1), (8, ends[-2]), (0, ends[-1])]), pc_table([(0, ends[-1])]), pc_table(lines), ends[-1]


class PcTables:
    """Tables one behind the other; equal ones stand once."""

    def __init__(self):
        self.data, self.places = bytearray(1), {}

    def place(self, table):
        if table not in self.places:
            self.places[table] = len(self.data)
            self.data += table
        return self.places[table]


def function_table(names, entries, places, size):
    def padded(data):
        return bytes(data) + bytes(-len(data) % 8)

    name_bytes = b''.join(name + b'\0' for name in names)
    starts, at = [], 0
    for name in names:
        starts.append(at)
        at += len(name) + 1
    pcs, triples = places
    parts = [padded(name_bytes), padded(bytes(4)), padded(b'b.s\0'), padded(pcs)]
    offsets = [72]
    for part in parts:
        offsets.append(offsets[-1] + len(part))
    pairs_size = 8 * len(names) + 4
    pairs = b''.join(struct.pack('<II', entry, pairs_size + 44 * k) for k, entry in enumerate(entries)) + struct.pack('<I', size)
    records = b''.join(
        struct.pack('<11I', entries[k], starts[k], 0, 0, depth, file, line, 0, 0, 1, 0x400)
        for k, (depth, file, line) in enumerate(triples))
    header = bytes.fromhex('f1ffffff00000108') + struct.pack('<QQQQQQQQ', len(names), 1, TEXT_AT, *offsets)
    return header + b''.join(parts) + pairs + records


def build(text_size, functions):
    """An image with about so many bytes of text in so many functions, the number of its instructions, and the addresses behind its calls."""
    draw, listed = random.Random(1), straight_instructions()
    codes, entries, at = [], [], 0
    for _ in range(functions):
        code = body(draw, listed, text_size // functions - 15)
        codes.append(code)
        entries.append(at)
        at += sum(5 if one is None else len(one) for one in code)
        at += -at % 16
    size, text, pcs, triples, symbols, backs = at, bytearray(), PcTables(), [], [], []
    names = [b'main.f%d' % k for k in range(functions)]
    for k, code in enumerate(codes):
        depth, file, line, length = tables_of(code, 2 + 10 * k)
        triples.append((pcs.place(depth), pcs.place(file), pcs.place(line)))
        symbols.append((names[k], TEXT_AT + entries[k], length, 'function', False))
        for one in code:
            if one is None:
                goal = draw.choice(entries)
                one = b'\xe8' + struct.pack('<i', goal - (len(text) + 5))
                backs.append(TEXT_AT + len(text) + 5)
            text += one
        text += b'\xcc' * (-len(text) % 16)
    table = function_table(names, entries, (pcs.data, triples), size)
    write = runpy.run_path(os.path.join(VECTORS, 'elf', 'make'))['image']
    return write(62, TEXT_AT, bytes(text), table, b'', symbols), sum(len(code) for code in codes), backs


def make_image(text_size, functions):
    """An image with about so many bytes of text in so many functions, and the number of its instructions."""
    return build(text_size, functions)[:2]


def make_stack(text_size, functions):
    """Such an image, and what makes a dump of so many calls over it: of a machine that stands before a call. Each frame has the word that
    the function pushed, and its return address, so return addresses stand two words apart. With `apart` each has a line of its own."""
    image, _, backs = build(text_size, functions)
    stack = 0xC000000000

    def dump(frames, apart):
        words = [*random.Random(2).choices(backs, k=frames - 1), 0]
        lines = [b'goasm-dump 1 amd64', b'pc %016x' % (backs[0] - 5), b'sp %016x' % stack, b'link ' + b'0' * 16]
        if apart:
            lines += [b'mem %016x %s' % (stack + 8 + 16 * k, struct.pack('<Q', word).hex().encode()) for k, word in enumerate(words)]
        else:
            lines.append(b'mem %016x %s' % (stack, b''.join(struct.pack('<QQ', 0, word) for word in words).hex().encode()))
        return b'\n'.join([*lines, b''])

    return image, dump
