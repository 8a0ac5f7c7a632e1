#!/usr/bin/env python3
"""An independent reading of function tables in the Go 1.20 and the Go 1.18 form, for expected lines."""
import os
import struct
def u32(b,o): return struct.unpack_from('<I',b,o)[0]
def u64(b,o): return struct.unpack_from('<Q',b,o)[0]
class Bad(Exception): pass
class Fault(Exception): pass
def pairs(b, at, quantum):
    """The runs of a pc-value table, as (end, value) pairs; raises Bad past the last good one."""
    value, end, first = -1, 0, True
    def varint():
        nonlocal at
        n = shift = 0
        for _ in range(5):
            if at >= len(b): raise Bad
            byte = b[at]; at += 1
            n |= (byte & 127) << shift
            shift += 7
            if byte < 128:
                if n >= 1 << 32: raise Bad
                return n
        raise Bad
    while True:
        d = varint()
        if d == 0 and not first: return
        steps = varint()
        value += (d >> 1) ^ -(d & 1)
        end += steps * quantum
        if not -2**31 <= value < 2**31 or end >= 1 << 32: raise Bad
        first = False
        yield end, value
def lookup_value(b, pctab, offset, quantum, place):
    if offset == 0: return None
    for end, value in pairs(b, pctab + offset, quantum):
        if place < end: return value
    return None
def text(b, at):
    if at > len(b): raise Bad
    n = b.find(0, at)
    if n < 0: raise Bad
    return b[at:n]
def read(b):
    if len(b) < 4 or u32(b,0) not in (0xfffffff1, 0xfffffff0): raise Fault('TB1 at 0')
    if len(b) < 72: raise Fault(f'TB2 at {len(b)}')
    if b[4] or b[5]: raise Fault('TB2 at 4')
    if b[6] not in (1,2,4): raise Fault('TB2 at 6')
    if b[7] != 8: raise Fault('TB2 at 7')
    if u64(b,24) > 2**64 - 2**32: raise Fault('TB2 at 24')
    for o in (32,40,48,56,64):
        if u64(b,o) > len(b): raise Fault(f'TB4 at {o}')
    n, pcln, pctab, names = u64(b,8), u64(b,64), u64(b,56), u64(b,32)
    if pcln + 8*n + 4 > len(b): raise Fault('TB4 at 64')
    for k in range(n-1):
        if u32(b,pcln+8*k+8) < u32(b,pcln+8*k): raise Fault(f'TB3 at {pcln+8*k+8}')
    size = 44 if b[0] == 0xf1 else 40
    for k in range(n):
        rec = pcln + u32(b,pcln+8*k+4)
        if rec + size > len(b) or rec + size + 4*u32(b,rec+28) + 4*b[rec+size-1] > len(b): raise Fault(f'TB4 at {pcln+8*k+4}')
        name = names + u32(b,rec+4)
        if name > len(b): raise Fault(f'TB4 at {rec+4}')
        if b.find(0,name) < 0: raise Fault(f'TB6 at {rec+4}')
        for f in (16,20,24):
            off = u32(b,rec+f)
            if off:
                try:
                    for _ in pairs(b,pctab+off,b[6]): pass
                except Bad: raise Fault(f'TB5 at {rec+f}')
def lookup(name, b, pc):
    try: read(b)
    except Fault as f: return 1, f'{name}: {f}\n'
    n, pcln, pctab, start = u64(b,8), u64(b,64), u64(b,56), u64(b,24)
    for k in range(n):
        lo = start + u32(b,pcln+8*k); hi = start + u32(b,pcln+8*k+8)
        if lo <= pc < hi:
            rec = pcln + u32(b,pcln+8*k+4); q = b[6]; place = pc - lo
            get = lambda f: lookup_value(b,pctab,u32(b,rec+f),q,place)
            show = lambda v: '?' if v is None else str(v)
            fv = get(20); fname = b'?'
            if fv is not None and fv >= 0:
                w = u64(b,40) + 4*(fv + u32(b,rec+32))
                if w + 4 <= len(b):
                    try: fname = text(b, u64(b,48) + u32(b,w))
                    except Bad: pass
            return 0, text(b,u64(b,32)+u32(b,rec+4)).decode('latin1') + ' ' + fname.decode('latin1') + ':' + show(get(24)) + ' depth ' + show(get(16)) + '\n'
    return 1, f'{name}: no function at 0x{pc:016x}\n'


def digest(answers):
    """FNV-1a of 32 bits over statuses and lines."""
    h = 2166136261
    for status, line in answers:
        for byte in bytes([status]) + line.encode('latin1'):
            h = (h ^ byte) * 16777619 & 0xFFFFFFFF
    return h


def main():
    """Prints the digests that the test of damaged bytes compares with."""
    with open(os.path.join(os.path.dirname(os.path.realpath(__file__)), 'damaged', 'cas.tab'), 'rb') as file:
        cas = file.read()
    for at in range(len(cas)):
        tables = [cas[:at] + bytes([value]) + cas[at + 1:] for value in (0, 1, 0x7F, 0x80, 0xFF)]
        print(f'0x{digest(lookup("cas.tab", table, 0x400011) for table in tables):08x},', end='\n' if at % 8 == 7 else ' ')


if __name__ == '__main__':
    main()
