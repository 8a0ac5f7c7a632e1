"""Stacks over images of amd64, with what `unwind` has to print of them, by an independent reading of docs/FORMATS.md and docs/REFUSALS.md.

The functions, depths, files and lines come from the image's function table, and the instructions from the listing that has to come of it."""
import struct
import model

WORD = 8
BEYOND = 1 << 64
GROWTH = (b'runtime.morestack', b'runtime.morestack_noctxt')
# Where the stacks of the dumps begin, and two return addresses outside the text.
STACK = 0xC000010000
OUTSIDE = (0, 0x7FFF00000000)


class Refused(Exception):
    """A walk can't go on."""


class Image:
    """An image that `check` accepts, and the lines that `dis` prints of it."""

    def __init__(self, data, listing):
        sections = self.sections(data)
        self.text_at, self.text_size = sections[b'.text'][3], sections[b'.text'][5]
        self.table = self.part(data, sections[b'.gopclntab'])
        growth = self.growth(self.part(data, sections[b'.symtab']), self.part(data, sections[b'.strtab']))
        # The instructions' addresses, and of those that aren't as the one before them; the address behind each call that grows no stack,
        # with its goal.
        self.starts, self.chosen, self.calls, last = set(), [], {}, None
        for line in listing.decode().splitlines():
            if line.startswith('TEXT '):
                continue
            address, code, text = line.split(' ', 2)
            at, size = int(address, 16), len(code) // 2
            self.starts.add(at)
            if text != last:
                self.chosen.append(at)
            last = text
            name, _, goal = text.partition(' ')
            goal = int(goal, 16) if name == 'CALL' and goal.startswith('0x') else None
            if name == 'CALL' and goal not in growth:
                self.calls[at + size] = goal
        self.looks = {}

    @staticmethod
    def part(data, row):
        return data[row[4]:row[4] + row[5]]

    @staticmethod
    def sections(data):
        headers, = struct.unpack_from('<Q', data, 40)
        count, names = struct.unpack_from('<HH', data, 60)
        rows = [struct.unpack_from('<IIQQQQIIQQ', data, headers + 64 * k) for k in range(count)]
        return {data[rows[names][4] + row[0]:].split(b'\0', 1)[0]: row for row in rows}

    @staticmethod
    def growth(symbols, names):
        """The addresses of the routines that grow the stack; section FFF1 has the symbols outside."""
        found = set()
        for name, _, _, section, at, _ in struct.iter_unpack('<IBBHQQ', symbols):
            if section == 0xFFF1 and names[name:].split(b'\0', 1)[0] in GROWTH:
                found.add(at)
        return found

    def has(self, address):
        return self.text_at <= address < self.text_at + self.text_size

    def look(self, address):
        """`NAME FILE:LINE` of an address of the text, and the depth there."""
        if address not in self.looks:
            status, line = model.lookup('', self.table, address)
            assert status == 0, line
            place, _, depth = line.rstrip('\n').rpartition(' depth ')
            self.looks[address] = (place, int(depth))
        return self.looks[address]

    def function(self, address):
        """The number of the function that has an address of the text."""
        pairs, count = model.u64(self.table, 64), model.u64(self.table, 8)
        return max(k for k in range(count) if self.text_at + model.u32(self.table, pairs + 8 * k) <= address)

    def is_top(self, address):
        """Whether a stack ends in the function: bit 0 of its flags."""
        pairs = model.u64(self.table, 64)
        record = pairs + model.u32(self.table, pairs + 8 * self.function(address) + 4)
        size = 44 if self.table[0] == 0xF1 else 40
        return self.table[record + size - 3] & 1 == 1


def walk(image, pc, sp, word):
    """The lines of a walk, where `word` gives the memory's word at an address or None; raises Refused with the code and what it carries."""
    if not image.has(pc):
        raise Refused(f'U1 0x{pc:016x}')
    if pc not in image.starts:
        raise Refused(f'U2 0x{pc:016x}')
    lines, look = [], pc
    while True:
        place, depth = image.look(look)
        lines.append(f'{place} 0x{pc:016x}\n')
        if image.is_top(look):
            return lines
        if sp + depth >= BEYOND:
            raise Refused(f'U5 0x{sp:016x} {depth}')
        back = word(sp + depth)
        if back is None:
            raise Refused(f'U3 0x{sp + depth:016x}')
        if not image.has(back):
            return lines
        if back not in image.calls:
            raise Refused(f'U4 0x{back:016x}')
        if sp + depth + WORD >= BEYOND:
            raise Refused(f'U5 0x{sp:016x} {depth}')
        pc, look, sp = back, back - 1, sp + depth + WORD


class Memory:
    """Bytes by their addresses."""

    def __init__(self):
        self.bytes = {}

    def put(self, at, word):
        for k, byte in enumerate(struct.pack('<Q', word)):
            self.bytes[at + k] = byte

    def word(self, at):
        found = [self.bytes.get(at + k) for k in range(WORD)]
        return None if None in found else int.from_bytes(found, 'little')

    def lines(self):
        """A line for each range of bytes that touch."""
        lines = []
        for at in sorted(self.bytes):
            if at - 1 not in self.bytes:
                lines.append(f'mem {at:016x} ')
            lines[-1] += f'{self.bytes[at]:02x}'
        return lines


def dump(pc, sp, memory):
    return '\n'.join(['goasm-dump 1 amd64', f'pc {pc:016x}', f'sp {sp:016x}', 'link ' + '0' * 16, *memory.lines(), ''])


def callers(image, look):
    """The addresses behind the calls of the function that has an address; where there are none, those behind any call."""
    own = image.function(look)
    found = [back for back, goal in sorted(image.calls.items()) if goal is not None and image.has(goal) and image.function(goal) == own]
    return found or sorted(image.calls)


def chain(image, pc, most, number):
    """Return addresses of callers, innermost first, up to a function in which a stack ends; the number chooses among the callers."""
    backs, look = [], pc
    while len(backs) < most and not image.is_top(look) and image.calls:
        choices = callers(image, look)
        backs.append(choices[number % len(choices)])
        look = backs[-1] - 1
        number = number // len(choices) + 1
    return backs


def stack(image, pc, backs, end):
    """The places of the return addresses of a stack, by the depths, and what stands there."""
    sp, places = STACK, []
    for look, back in zip([pc, *(back - 1 for back in backs)], [*backs, end]):
        places.append((sp + image.look(look)[1], back))
        sp = places[-1][0] + WORD
    return places


def filled(places, stale=()):
    """A memory with these words, and with words all around them that look like return addresses but aren't in use."""
    memory = Memory()
    if stale:
        for number, at in enumerate(range(STACK - 4 * WORD, places[-1][0] + 4 * WORD, WORD)):
            memory.put(at, stale[number % len(stale)])
    for at, word in places:
        memory.put(at, word)
    return memory


def answer(image, pc, sp, memory):
    """The status, and the text on the output or the error, of a dump in the file `d`."""
    try:
        return 0, ''.join(walk(image, pc, sp, memory.word))
    except Refused as refusal:
        return 1, f'd: {refusal}\n'


def told(image, pc, backs):
    """The lines of these calls, straight from the function table."""
    frames = [(pc, pc), *((back, back - 1) for back in backs)]
    return ''.join(f'{image.look(look)[0]} 0x{at:016x}\n' for at, look in frames)


def states(image):
    """For each instruction a dump with that one next, with the words in use alone or among others. Its lines are those of the calls. Behind
    a function in which a stack ends a return address stands too, which mustn't be followed."""
    stale = sorted(image.calls)
    for number, pc in enumerate(image.chosen):
        backs = chain(image, pc, number % 6, number // 6)
        tops = stale if image.is_top(backs[-1] - 1 if backs else pc) else ()
        places = stack(image, pc, backs, tops[0] if tops else OUTSIDE[number % 2])
        memory = filled(places, stale if number % 4 == 0 else ())
        want = 0, told(image, pc, backs)
        assert answer(image, pc, STACK, memory) == want
        yield f'state {pc:#x}', dump(pc, STACK, memory), *want


def addresses(image):
    """Addresses of the text and around it: as the next one where no instruction begins there, and as a return address."""
    first = next((start for start in image.chosen if not image.is_top(start)), None)
    around = {at + step for at in image.chosen for step in range(-1, 6)}
    for address in sorted(around | {image.text_at + image.text_size - step for step in range(2)}):
        if address not in image.starts:
            yield f'next {address:#x}', dump(address, STACK, Memory()), *answer(image, address, STACK, Memory())
        if first is not None:
            memory = filled(stack(image, first, [address], 0) if address in image.calls else stack(image, first, [], address))
            yield f'return address {address:#x}', dump(first, STACK, memory), *answer(image, first, STACK, memory)


def broken(image):
    """For each instruction a stack of which a word lacks a byte, and one at the end of memory."""
    for number, pc in enumerate(image.chosen):
        places = stack(image, pc, chain(image, pc, 2, number), 0)
        memory = filled(places)
        del memory.bytes[places[number % len(places)][0] + number % WORD]
        yield f'a byte less {pc:#x}', dump(pc, STACK, memory), *answer(image, pc, STACK, memory)
        depth = image.look(pc)[1]
        sp = BEYOND - (max(depth, 1), depth + WORD - 1, depth + WORD)[number % 3]
        back = sorted(image.calls)[number % len(image.calls)] if image.calls else 0
        memory = filled([(sp + depth, back)] if sp + depth + WORD <= BEYOND else [])
        yield f'end of memory {pc:#x}', dump(pc, sp, memory), *answer(image, pc, sp, memory)


def cases(image):
    """What is tried: a name, the dump, and the status and text that have to come."""
    for part in (states, addresses, broken):
        yield from part(image)
