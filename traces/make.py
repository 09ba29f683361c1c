#!/usr/bin/env python3
"""Writes the traces of this folder, NAME.bin, and what the bench must print of each, NAME.out. With `--check`: writes nothing, and fails
where a file differs from what it computes."""
import os
import sys

sys.dont_write_bytecode = True
from bench import bench, record
from model import ANY, BITS, BLOCKS, ORDERS, SHEET, frame, passes
from store import store


def joined(first, step, pieces):
    return b''.join(record(first + step * k, piece) for k, piece in enumerate(pieces))


def good(field, k):
    """A number that the k-th field takes, no fresh one: floats -0.0, the least above 0, the largest finite; flags all that are known."""
    if field[0] == 'F':
        return [0x80000000, 1, 0x7F7FFFFF][k % 3]
    if field[1] is BITS:
        return field[2]
    if field[1] is not ANY:
        return field[2] - k
    return -3 - k if field[0].islower() else 7 + k


def bad(field):
    """A number of the field's width out of its range, or None where every one passes; of flags the lowest bit that is not known."""
    if field[1] is BITS:
        return field[2] + 1
    tries = [0x7F800000] if field[0] == 'F' else [] if field[1] is ANY else [field[2] + 1, field[1] - 1]
    top = {'B': 256, 'H': 65536, 'h': 32768}.get(field[0], 2**32)
    return next((n for n in tries if not passes(field, n) and n < top), None)


def every_unit(name, kept):
    """Get, set of these numbers with reserved bytes, get, wrong CRC, each field out of range, get."""
    fields, get = BLOCKS[name].fields, b'g' + name.encode()
    yield from [get, frame(name, kept, reserved=255), get]
    yield frame(name, [0 if f[1] in (ANY, BITS) else f[1] for f in fields], wrong=1)
    for k, field in enumerate(fields):
        if bad(field) is not None:
            yield frame(name, kept[:k] + [bad(field)] + kept[k + 1:])
    yield get


def units():
    for name, row in SHEET.items():
        yield from every_unit(name, [good(f, k) for k, f in enumerate(row.fields)])
    yield from [order.encode() for order in ORDERS]
    yield from [b'\0', b'righ', b't', b'errc', b'smow', b'gxyz', b's\0\0\0\0', b'STOP', b'stopleftxxxxhome\0gbrkloft', b'']


def night():
    """Two sets that lost a byte. The first one eats the next frame's first byte, and what follows is misread until a wait; the second one
    is dropped by a wait alone. The setting stays what it was."""
    power = [50, 1000, 60, 300, 3]
    damaged = frame('pwr', [99, 1000, 60, 300, 3])
    damaged = damaged[:9] + damaged[10:]
    return b''.join(record(*r) for r in [
        (1000, frame('pwr', power)), (2000, b'gpwr'),
        (60000, damaged), (60100, b'stop'), (60200, b'left'), (60700, b'stop'), (61000, b'gpwr'),
        (90000, damaged), (90401, b'stop'), (90500, b'gpwr')])


def moves():
    """02, P5: positions set, cleared and got; moves at their ends, refused, and in the middle of a record, whose rest gets a call of its own."""
    least, largest = frame('move', [-2147483648, -255]), frame('movr', [2147483647, 255])
    yield from [b'gpos', frame('spos', [-2147483648, -255, -2**63, 0], reserved=255), b'gpos', b'zero', b'gpos']
    yield from [frame('spos', [2147483647, 255, 2**63 - 1, 0]), b'gpos']
    yield from [frame('spos', [flags, -flags, -5000000000 - flags, flags]) + b'gpos' for flags in range(5)]
    yield from [least, largest, frame('move', [0, 0]), frame('movr', [-1, 1], reserved=255), frame('move', [2147483647, 255]), b'gpos']
    yield from [frame(name, [5, microsteps]) for name in ('move', 'movr') for microsteps in (-256, -255, 255, 256)]
    yield from [frame('spos', [5, microsteps, 6, 3]) for microsteps in (-256, -255, 255, 256)]
    # 004's worked frame, whose CRC is of other bytes, and with the CRC of its own
    yield from [b'movr\xc8' + bytes(11) + last for last in (b'\x53\xc7', b'\x86\x9c')]
    yield from [b'gpos' + least + b'zero' + largest + b'gposstop' + least + b'gp', b'os', frame('move', [1, 2], wrong=1)]
    yield from [least[:9], least[9:], largest[:9]]


CTL = [*range(100000, 0, -10000), *range(10), *range(1000, 10000, 1000), 30, 15, -32, 255]
JOY = [100, 5000, 9900, 4, 5, 1]


def pendant():
    """02, P6: ctl and joy got, set, refused for a field, on both sides of their rules, and for a field beside a broken rule."""
    yield from every_unit('ctl', CTL)
    yield from every_unit('joy', JOY)
    for speed, part in [(0, 0), (0, 1), (1, 0)]:
        yield from [frame('ctl', [speed, *CTL[1:10], part, *CTL[11:]]), b'gctl']
    for ends in [(5000, 5000, 5000), (5001, 5000, 5000), (5000, 5001, 5000), (0, 0, 10000), (0, 10000, 10000)]:
        yield from [frame('joy', [*ends, *JOY[3:]]), b'gjoy']
    yield from [frame('ctl', [0] * 32 + [256]), frame('joy', [2, 1, 10001, 0, 0, 0]), b'gctlgjoy']
    # the replies of one record take two calls: the last gctl does not fit any more
    yield frame('ctl', CTL) + frame('joy', JOY) + b'gctlgjoygctlgctlgjoy'


def cuts(first, name, numbers, places):
    """A set cut at each of these places by a wait of 400 ms, and of 401, then its get. The first number tells the sets apart."""
    for k, (place, wait) in enumerate((place, wait) for place in places for wait in (400, 401)):
        unit, start = frame(name, [k + 1, *numbers[1:]]), first + 3000 * k
        yield from [record(start, unit[:place]), record(start + wait, unit[place:]), record(start + 2000, b'g' + name.encode())]


WAITS = [(4294967200, b'st'), (304, b'op'), (4294967200, b'st'), (305, b'op'), (706, b'st'), (1106, b'op'), (2000, b'st'), (2401, b'\0'),
         (3000, b'st'), (3300, b''), (3401, b'op'), (3400, b'xx')]
BEFORE, NEXT = record(1000, b'stop\0'), record(2000, b'left')
SET = frame('brk', [1, 2, 4, 5, 3])

TRACES = {
    'example': record(1000, b'stopxxxx\0') + record(2000, b'le') + record(2401, b'ft'),
    'units': joined(1000, 500, units()),
    'night': night(),
    'moves': joined(1000, 400, moves()),
    'pendant': joined(1000, 500, pendant()) + b''.join([*cuts(100000, 'ctl', CTL, (2, 50, 92)), *cuts(200000, 'joy', JOY, (2, 10, 21))]),
    'waits': b''.join(record(*r) for r in WAITS),
    'pieces': joined(1000, 400, [SET[:1], SET[1:3], SET[3:5], b'', SET[5:24], SET[24:] + b'gb', b'rk']),
    'room': joined(1000, 500, [b'gpid' * 6, b'\0' * 250, b'gpid' * 5 + b'xxxxyyyy\0\0\0', b'gpid' * 60 + b'stop']),
    'empty': b'',
    'empty_record': record(7, b'') + record(4294967295, b'') + NEXT,
    'bad_first': b'lK' + NEXT[2:],
    'bad_mark': BEFORE + b'KK' + NEXT[2:] + NEXT,
    'bad_second_mark': BEFORE + b'LL' + NEXT[2:] + NEXT,
    'bad_count': BEFORE + NEXT[:6] + bytes([251]) + bytes(251) + NEXT,
    'cut_mark': BEFORE + NEXT[:1],
    'cut_stamp': BEFORE + NEXT[:5],
    'cut_count': BEFORE + NEXT[:6],
    'cut_bytes': BEFORE + NEXT[:-1],
    'cut_all_bytes': BEFORE + NEXT[:7],
    'full': joined(0, 100, [SET * 10] * 233) + record(30000, SET * 4 + b'left' * 3),
}
TRACES['too_long'] = TRACES['full'] + b'\0'
assert len(TRACES['full']) == 60000

files = {}
for name, trace in TRACES.items():
    files[name + '.bin'], files[name + '.out'] = trace, bench(trace).encode()
store(os.path.dirname(os.path.abspath(__file__)), files)
