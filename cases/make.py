#!/usr/bin/env python3
"""Writes the player's cases, crates/player/stdin, and what it must print of them, crates/player/stdout. With `--check`: writes nothing, and fails
where a file differs from what is computed. The form of a case is told in crates/player/src/main.rt."""
import os
import struct
import sys

sys.dont_write_bytecode = True
import model
from model import ANY, BITS, BLOCKS, FRAME, HOST_FRAME, LATER, ORDERS, PIECE, ROWS, SHEET, TABLE, TRAVELS, Board
from model import crc, first_bad, frame, fresh, number_of, section, shown
from store import store

ROOM = 250  # of a call, where its case does not say


def empty(size):
    """A buffer before it is lent."""
    return b'\xee' * size


def wide(data, size=FRAME):
    """The front of a buffer in which these bytes stand."""
    return data + empty(size - len(data))


def packed(position):
    """A position in a case: steps, microsteps and count."""
    return struct.pack('<ihq', *position)


class Player:
    """Writes down cases and plays each on the model: its methods are the player's operations."""

    def __init__(self):
        self.stdin, self.stdout, self.board = b'', '', Board()

    def case(self, operation, number=0, room=0, stamp=0, data=b''):
        self.stdin += struct.pack('<cBHIH', operation.encode(), number, room, stamp, len(data)) + data

    def say(self, label):
        """The label of what follows, in front of its line."""
        self.case('"', data=label.encode() + b':')
        self.stdout += label + ':'

    def line(self, *values):
        """A line's end: numbers in decimal, bytes in hexadecimal or `-`."""
        self.stdout += ''.join(' ' + (v.hex() or '-' if isinstance(v, bytes) else str(v)) for v in values) + '\n'

    def rest(self):
        b = self.board
        return b.flags, *b.refused, shown(b.position), b.count, b.held[:b.count], b.last

    # ---- the board

    def fresh(self):
        self.case('f')
        self.board = Board()

    def write(self, place, data):
        self.case('p', room=place, data=data)
        self.board.table[place:place + len(data)] = data

    def put(self, block, data):
        self.write(model.place(block).start, data)

    def note(self, flags, block, field):
        self.case('n', data=struct.pack('<III', flags, block, field))
        self.board.flags, self.board.refused = flags, (block, field)

    def place(self, position):
        self.case('w', data=packed(position))
        self.board.position = position

    def hold(self, data, count, stamp=0):
        self.case('h', room=count, stamp=stamp, data=data)
        self.board.held, self.board.count, self.board.last = (data + bytes(FRAME))[:FRAME], count, stamp

    def call(self, piece, stamp=7, room=ROOM, show=0):
        self.case('c', show, room, stamp, piece)
        number, taken, order, reply = self.board.call(piece, stamp, room)
        self.line(number, taken, len(reply), shown(order), wide(reply, show), *self.rest())
        return reply

    def report(self, now):
        self.case('r', stamp=now)
        number = self.board.report_time(now)
        self.line(number, *self.rest())

    def drive(self, position):
        self.case('d', data=packed(position))
        number = self.board.report_position(position)
        self.line(number, *self.rest())

    def hand_out(self, room):
        self.case('l', room=room)
        self.line(*self.board.hand_out(empty(room)))

    def take_back(self, data):
        self.case('t', data=data)
        number, self.board = model.take_back(data)
        self.line(number, *self.rest())

    def block(self, block):
        self.case('b', number_of(block))
        data = bytes(self.board.table[model.place(block)])
        self.line(first_bad(block, model.numbers_in(block, data)), wide(data))

    def keeps(self):
        self.case('k')
        self.line(self.board.held)

    # ---- the host

    def get(self, block, room=50):
        self.case('g', number_of(block), room)
        return self.written(*model.write_get(block, empty(room)))

    def set(self, block, data, room=50):
        self.case('s', number_of(block), room, data=data)
        return self.written(*model.write_set(block, model.numbers_in(block, data), empty(room)))

    def order(self, order, room=50):
        self.case('o', ORDERS.index(order) + 1, room)
        return self.written(*model.write_order(order, empty(room)))

    def written(self, number, length, buffer):
        self.line(number, length, buffer)
        return buffer[:length]

    def answer(self, data):
        self.case('a', data=data)
        number, length, name, read = model.read(data)
        self.line(number, length, *[] if name is None else [name], *[] if read is None else [wide(read, HOST_FRAME)])

    # ---- arithmetic

    def checksum(self, data):
        self.case('x', data=data)
        self.line(*struct.unpack('<H', crc(data)))

    def integer(self, n):
        self.case('i', stamp=n)
        self.line(n - 65536 if n >= 32768 else n)


# ---- numbers of fields

FIELDS = {
    'mov': ['Speed', 'uSpeed', 'Accel', 'Decel', 'AntiplaySpeed', 'uAntiplaySpeed'],
    'eng': ['NomVoltage', 'NomCurrent', 'NomSpeed', 'uNomSpeed', 'EngineFlags', 'Antiplay', 'MicrostepMode', 'StepsPerRev'],
    'pwr': ['HoldCurrent', 'CurrReductDelay', 'PowerOffDelay', 'CurrentSetTime', 'PowerFlags'],
    'eds': ['BorderFlags', 'EnderFlags', 'LeftBorder', 'uLeftBorder', 'RightBorder', 'uRightBorder'],
    'hom': ['FastHome', 'uFastHome', 'SlowHome', 'uSlowHome', 'HomeDelta', 'uHomeDelta', 'HomeFlags'],
    'brk': ['t1', 't2', 't3', 't4', 'BrakeFlags'],
    'pid': ['KpU', 'KiU', 'KdU', 'Kpf', 'Kif', 'Kdf'],
    'move': ['Position', 'uPosition'],
    'movr': ['DeltaPosition', 'uDeltaPosition'],
    'spos': ['Position', 'uPosition', 'EncPosition', 'PosFlags'],
    'ctl': [*(f'{run}[{k}]' for run, count in [('MaxSpeed', 10), ('uMaxSpeed', 10), ('Timeout', 9)] for k in range(count)),
            'MaxClickTime', 'Flags', 'DeltaPosition', 'uDeltaPosition'],
    'joy': ['JoyLowEnd', 'JoyCenter', 'JoyHighEnd', 'ExpFactor', 'DeadZone', 'JoyFlags'],
}
# a good set of each block, whose numbers tell its fields apart
SETS = {
    'mov': [100000, 17, 1, 65535, 258, 255],
    'eng': [1, 8000, 100000, 2, 3, -4, 9, 200],
    'pwr': [100, 1, 2, 3, 4],
    'eds': [1, 2, -3, -255, 4, 255],
    'hom': [100000, 1, 2, 3, -4, 255, 5],
    'brk': [65535, 1, 2, 3, 3],
    'pid': [1, 2, 3, 0x80000000, 0x3F000000, 0x3F800000],
    'move': [-70000, 21],
    'movr': [70000, -21],
    'spos': [-3, 4, -5000000000, 0],
    'ctl': [*range(99991, 100001), *range(10), *range(65527, 65536), 30, 15, -32, 255],
    'joy': [1, 5000, 10000, 4, 255, 1],
}
GAINS = [0x80000000, 1, 0x7F7FFFFF, 0x7F800000, 0x7FC00001]  # -0.0, the least above 0, the largest finite, infinity, a NaN


def span(form):
    """The least and the largest number of a field's width."""
    bits = 8 * struct.calcsize('<' + form)
    return (-2**(bits - 1), 2**(bits - 1) - 1) if form.islower() else (0, 2**bits - 1)


def edges(field):
    """What a field is tried with: its range's edges and the numbers past them; the ends of its width where it has none; gains; every flag bit."""
    least, most = span(field[0].replace('F', 'I'))
    if field[0] == 'F':
        return GAINS
    if field[1] is BITS:
        return [1 << k for k in range(most.bit_length())]
    if field[1] is ANY:
        return [least, most]
    return [n for n in (field[1] - 1, field[1], field[2], field[2] + 1) if least <= n <= most]


def out_of_range(block):
    """The fields of a block, from 0, each with the numbers tried that its range refuses."""
    return [(k, n) for k, field in enumerate(BLOCKS[block].fields) for n in edges(field) if not model.passes(field, n)]


def replaced(block, numbers, k, n):
    """The data section of these numbers, but for n in the k-th field, from 0."""
    return section(block, numbers[:k] + [n] + numbers[k + 1:])


# ---- the cases

SPWR = b'spwr\xff\xff' + bytes(14)
STOP = b'stop'
UNKNOWN = b'gets'  # a command of 004 that no request has named


def sheet(p):
    """01, "Frames on the bench": the cases of calls, starred ones too."""
    def on_fresh(label, piece, held=b'', **how):
        p.fresh()
        if held:
            p.hold(held, len(held))
        p.say(label)
        p.call(piece, **how)
    sbrk = b'sbrk\xff\xff' + bytes(17)
    on_fresh('sbrk', sbrk + b'\0\0')
    p.say('then gbrk')
    p.call(b'gbrk')
    on_fresh('sbrk, CRC 01 00', sbrk + b'\1\0')
    p.say('then gbrk')
    p.call(b'gbrk')
    on_fresh('smov', b'smov\xff\xff' + bytes(24))
    p.say('then gmov')
    p.call(b'gmov')
    on_fresh('righ then t', b'right')
    on_fresh('s and four zeros', b's\0\0\0\0')
    for now in (304, 305):
        on_fresh('st at 4294967200', b'st', stamp=4294967200)
        p.say(f'op at {now}')
        p.call(b'op', stamp=now)
    on_fresh('spwr', SPWR)
    for room in (HOST_FRAME, FRAME - 1):
        on_fresh(f'room {room}', STOP, room=room, show=FRAME)
    on_fresh('piece of 251', b'x' * (PIECE + 1))
    on_fresh('both', b'x' * (PIECE + 1), room=FRAME - 1)
    on_fresh('unfinished 00', STOP, held=b'\0')
    on_fresh(f'unfinished 00, room {FRAME - 1}', STOP, held=b'\0', room=FRAME - 1)
    for piece in (b'gpidgpid', b'gctlgctl'):
        on_fresh(piece.decode(), piece, room=FRAME)


def unsound(p):
    """A board for each rule of soundness, broken; each range is broken in `fields`, each block's rule in `pendant`."""
    brk, move, spos = (frame(name, fresh(name)) for name in ('brk', 'move', 'spos'))
    for label, held, count in [
            ('unknown name', b'x', 4), ('a get', b'gmov', 4), ('an order', b'stop', 4), ('whole set', brk, 25), ('longer than its set', brk, 26),
            (f'{FRAME + 1} bytes', b'x', FRAME + 1), (f'{FRAME + 1} bytes of a set', b'sctl', FRAME + 1), ('65535 bytes', b'sctl', 65535),
            ('zero in front', b'\0mov', 3), ('gpos', b'gpos', 4), ('the name zero', b'zero', 4), ('whole move', move, 18),
            ('whole movr', b'movr', 18), ('whole spos', spos, 26), ('whole spid', b'spid', 48), ('whole sctl', b'sctl', 93),
            ('whole sjoy', b'sjoy', 22),
            # and sound ones, close by
            ('one byte short', brk[:24], 24), ('three bytes', b'xxx', 3), ('a name', b'spid', 4), ('spid, one byte short', b'spid', 47),
            ('move, one byte short', move, 17), ('movr, one byte short', b'movr', 17), ('spos, one byte short', spos, 25),
            ('sctl, one byte short', b'sctl', 92), ('sjoy, one byte short', b'sjoy', 21)]:
        p.fresh()
        p.hold(held, count)
        p.say(label)
        p.call(STOP)
    for flags in (7, 8, 2**32 - 1):
        p.fresh()
        p.note(flags, 0, 0)
        p.say(f'flags {flags}')
        p.call(STOP)
    for block in BLOCKS:
        p.fresh()
        p.put(block, bytes(model.total(block) - 6))
        p.say(f'{block} all zero')
        p.call(STOP)
    for microsteps in (-32768, -256, -255, 255, 256, 32767):
        p.fresh()
        p.place([1, microsteps, 2])
        p.say(f'position, microsteps {microsteps}')
        p.call(STOP)
        p.say('  clock 1000')
        p.report(1000)
        p.say('  drive, microsteps 256')
        p.drive([3, 256, 4])
        p.say('  drive, microsteps 255')
        p.drive([3, 255, 4])
    p.fresh()
    p.note(4, 255, 2**32 - 1)
    p.say('any refused block and field')
    p.call(STOP)


def one_more(data, place):
    """The same bytes but for one of them."""
    changed = bytearray(data)
    changed[place] = (changed[place] + 1) % 256
    return bytes(changed)


def stops(p):
    """The three causes for which a call stops: for each reply, a room that it fills and one that is a byte short; an order; the piece's end."""
    for label, last, size in [
            ('zero', b'\0', 1), ('errc', UNKNOWN, 4), ('errd', b'spwr' + bytes(16), 4), ('errv', SPWR, 4), ('order', STOP, 4),
            ('set', frame('pwr', SETS['pwr']), 4), ('get', b'gpwr', 20), ('move', frame('move', SETS['move']), 4),
            ('spos', frame('spos', SETS['spos']), 4), ('gpos', b'gpos', 26), ('the name zero', b'zero', 4), ('gctl', b'gctl', FRAME)]:
        for room in (FRAME - 1 + size, FRAME + size):
            p.fresh()
            p.say(f'{label} behind {FRAME} bytes, room {room}')
            p.call(b'gctl' + last + b'\0', room=room)
    p.fresh()
    p.say('three gctl')
    p.call(b'gctl' * 3)
    p.say('the rest of them')
    p.call(b'l')
    for label, piece in [
            ('orders', b'leftstop'), ('250 zeros', bytes(PIECE)), ('250 bytes of a name', b'x' * PIECE), ('unknown names', b'aaaabbbbccc')]:
        p.fresh()
        p.say(label)
        p.call(piece)
    p.say('the last of them, late')
    p.call(b'c', stamp=408)


def blocks(p):
    """A good set and its get, and the set with each byte of its CRC wrong."""
    for block in BLOCKS:
        p.fresh()
        p.say(f'{block} set')
        p.call(frame(block, fresh(block)))
        p.say(f'{block} get')
        p.call(b'g' + block.encode())
        for place in (-2, -1):
            p.fresh()
            p.say(f'{block} wrong CRC')
            p.call(one_more(frame(block, fresh(block)), place))


def one_number(p, label, block, data):
    """A data section through the writer, where the host has its block, as a set with its get, and held by a board."""
    if block in SHEET:
        p.say(f'{label} write')
        p.set(block, data, room=HOST_FRAME)
        label = ' '
    p.fresh()
    p.say(f'{label} set')
    p.call(model.framed('s' + block, data))
    p.say('  get')
    p.call(b'g' + block.encode())
    p.fresh()
    p.put(block, data)
    p.say('  held')
    p.call(STOP)
    p.say('  block')
    p.block(block)


def beside(block, k):
    """What stands beside the k-th field, from 0, where its edges are tried: fresh numbers, or such that both edges keep the block's rule."""
    if block == 'ctl':
        return [1] * len(FIELDS[block])
    if block == 'joy':
        return [10000 if k < place < 3 else 0 for place in range(len(FIELDS[block]))]
    return fresh(block)


def fields(p):
    """Every field at its edges, every bit of every flag field."""
    for block in BLOCKS:
        for k, field in enumerate(BLOCKS[block].fields):
            for n in edges(field):
                one_number(p, f'{block} {FIELDS[block][k]} {n}', block, replaced(block, beside(block, k), k, n))


def pendant(p):
    """02, P6: the blocks of a fresh board; both rules on both sides; a rule broken beside each number that its field's range refuses, beside a wrong
    CRC, after a good set, and on a board that is told or asked anything; the last byte of the longest set."""
    ctl, joy = SETS['ctl'], SETS['joy']
    session(p, 'fresh', (b'gctl', 7), (b'gjoy', 7))
    for speed, part in [(0, 0), (0, 1), (1, 0), (0, 128), (256, 0), (65536, 0)]:
        one_number(p, f'ctl speed {speed}, part {part}', 'ctl', section('ctl', [speed, *ctl[1:10], part, *ctl[11:]]))
    for low, centre, high in [
            (0, 0, 0), (256, 256, 256), (10000, 10000, 10000), (256, 256, 257), (256, 257, 257), (255, 256, 257),
            (257, 256, 256), (257, 256, 257), (256, 255, 10000), (256, 257, 256), (0, 257, 256), (255, 256, 255), (258, 257, 256)]:
        one_number(p, f'joy {low}, {centre}, {high}', 'joy', section('joy', [low, centre, high, *joy[3:]]))
    for block, broken in [('ctl', [0] * len(ctl)), ('joy', [2, 1, 0, 0, 0, 0])]:
        for k, n in out_of_range(block):
            if (block, k) != ('ctl', 0):  # a first speed out of its range is not zero
                one_number(p, f'{block} rule broken, {FIELDS[block][k]} {n}', block, replaced(block, broken, k, n))
        units = [frame(block, broken, wrong=1), frame(block, SETS[block]), frame(block, broken, reserved=255), b'g' + block.encode()]
        session(p, f'{block} rule broken', *((unit, 7) for unit in units))
        p.put(block, section(block, broken))
        refused(p, block)
    whole = frame('ctl', ctl)
    p.fresh()
    p.hold(whole[:-1], FRAME - 1)
    p.say("sctl's last byte")
    p.call(whole[-1:])


# a number that a set of those is refused for: out of its range, or against its block's rule
REFUSED = [
    ('mov', 0, 100001), ('eng', 6, 10), ('pwr', 0, 101), ('eds', 5, 256), ('hom', 5, -256), ('pid', 3, model.NAN),
    ('ctl', 9, 100001), ('ctl', 32, -256), ('ctl', 0, 0), ('joy', 5, 2), ('joy', 0, 5001), ('joy', 2, 4999)]


def exchange(p, label, piece, room=FRAME):
    """What the board answers to a frame, read by the host."""
    p.say(label + ' call')
    reply = p.call(piece, room=room)
    p.say('  read')
    p.answer(reply)


def requests(p):
    """Every request through writer, board and reader; then what the board answers to frames that no writer sends."""
    p.fresh()
    for turn in ('get', 'set', 'get'):
        for block in SHEET:
            p.say(f'{turn} {block} write')
            exchange(p, ' ', p.get(block) if turn == 'get' else p.set(block, section(block, SETS[block])))
    for order in ORDERS:
        p.say(f'order {order} write')
        exchange(p, ' ', p.order(order))
    exchange(p, 'unknown', UNKNOWN)
    exchange(p, 'damaged', b'spwr' + bytes(16))
    exchange(p, 'HoldCurrent 255', SPWR)
    exchange(p, 'zero', b'\0')


def refusals(p):
    """The refusals of writer and reader, in 02's sequence: each just before the next would hold."""
    for block, k, n in REFUSED:
        if block in SHEET:
            p.say(f'{FIELDS[block][k]} {n} write')
            p.set(block, replaced(block, SETS[block], k, n))
    p.say('no room besides write')
    p.set('mov', replaced('mov', SETS['mov'], 0, 100001), room=0)
    for room in (0, 3, 4):
        p.say(f'room {room} write')
        p.get('mov', room)
        p.say(f'room {room} write')
        p.order('stop', room)
    for block in SHEET:
        for room in (model.total(block) - 1, model.total(block)):
            p.say(f'set {block}, room {room} write')
            p.set(block, section(block, SETS[block]), room)
    for room in (29, 30):
        p.say(f'set mov with Speed 1, room {room} write')
        p.set('mov', replaced('mov', SETS['mov'], 0, 1), room)
    power = b'\xff' + bytes(12) + b'\x01'
    gains = section('pid', [1, 2, 3, 0x7FA00001, 0xFF800000, 0x80000000])
    for label, data in [
            ('nothing', b''), ('zero', b'\0'), ('zero, then more', b'\0mov'), ('three bytes', b'gmo'), ("no answer's name", b'move'),
            ('a later command, cut', b'gpos\0\0'), ('a later command', model.framed('gpos', bytes(20))), ('the name zero', b'zero'),
            *((f'a later block, {name}', model.framed('g' + name, section(name, SETS[name]))) for name in LATER), ('its echo', b'sctl'),
            ('cut', b'gpwr' + bytes(15)), ('wrong CRC', b'gpwr' + bytes(16)),
            ('HoldCurrent 255, reserved not zero', model.framed('gpwr', power)), ('gains not finite', model.framed('gpid', gains)),
            ('errc, then more', b'errcerrd'), ('errd', b'errd'), ('errv, cut', b'err')]:
        p.say(f'{label} read')
        p.answer(data)
    for block in SHEET:
        data = model.framed('g' + block, section(block, SETS[block]))
        for label, part in [('', data), (', then more', data + b'\0'), (', cut', data[:-1]), (', damaged', one_more(data, -1))]:
            p.say(f'{block}{label} read')
            p.answer(part)


def session(p, label, *events):
    """What happens to a fresh board: bytes with their stamp, None with a time that is reported, a position that the drive reports with None."""
    p.fresh()
    for what, stamp in events:
        if what is None:
            p.say(f'{label}, clock {stamp}')
            p.report(stamp)
        elif stamp is None:
            p.say(f'{label}, drive')
            p.drive(what)
        else:
            p.say(f'{label}, bytes {stamp}')
            p.call(what, stamp, FRAME)


def reports(p):
    """02, P3: reports of the time among calls."""
    # half a command and, 2^32 + 100 ms later, the rest of it: the counter has come round, and nobody told the time
    session(p, 'not told', (b'st', 0), (b'op', 100))
    for label, first, now, last in [
            ('told after 400 ms', 0, 400, 100), ('told after 401 ms', 0, 401, 100), ('told after a day', 0, 86400000, 100),
            ('400 ms across the wrap', 4294967200, 304, 4), ('401 ms across the wrap', 4294967200, 305, 4)]:
        session(p, label, (b'st', first), (None, now), (b'op', last))
    # a call stops, the time is reported, and the rest of its piece is offered with its own stamp
    for now in (1400, 1401):
        session(p, f'{now - 1000} ms, then the rest', (b'gpidgpid', 1000), (None, now), (b'd', 1000))
    # a report restarts no wait; with nothing unfinished it changes nothing
    session(p, 'two reports', (b'st', 0), (None, 300), (None, 500))
    session(p, 'nothing unfinished', (STOP, 600), (None, 4000000000))
    p.fresh()
    p.hold(b'\0', 1)
    p.say('unfinished 00, clock 1000')
    p.report(1000)


STOOD, REPORTED = [7, -8, 9], [-2147483648, 255, 9223372036854775807]


def travels(p):
    """02, P5: blocks 8 to 10 on a board that stands somewhere, every field at its edges, every flag, each byte of the CRC wrong; then gpos."""
    def on_placed(label, unit):
        p.fresh()
        p.place(STOOD)
        p.say(label)
        p.call(unit)
        p.say('  gpos')
        p.call(b'gpos')
    for name in TRAVELS:
        good = SETS[name]
        for k, field in enumerate(ROWS[name].fields):
            for n in edges(field):
                on_placed(f'{name} {FIELDS[name][k]} {n}', model.framed(name, replaced(name, good, k, n)))
        on_placed(f'{name}, reserved not zero', frame(name, good, reserved=255))
        for place in (-2, -1):
            on_placed(f'{name} wrong CRC', one_more(frame(name, good), place))
    on_placed('move, both least', frame('move', [-2147483648, -255]))
    on_placed('movr, both largest', frame('movr', [2147483647, 255]))
    for flags in range(5):
        for microsteps in (-256, -255, 255, 256):
            on_placed(f'spos, flags {flags}, microsteps {microsteps}', frame('spos', [-3, microsteps, -5000000000, flags]))
    # 004's worked frame, whose CRC is of other bytes, and with the CRC of its own
    for last in ('53c7', '869c'):
        on_placed(f"004's movr, CRC {last}", b'movr\xc8' + bytes(11) + bytes.fromhex(last))


def zeros(p):
    """02, P5: zero while a count stands, between sets, and within a piece, which it does not stop; a move does."""
    for count in (0, -1, -2**63, 2**63 - 1):
        p.fresh()
        p.place([-2147483648, 255, count])
        p.say(f'zero, count {count}')
        p.call(b'zero')
        p.say('  gpos')
        p.call(b'gpos')
    steps, counted, move, movr = frame('spos', [1, 2, 3, 2]), frame('spos', [4, 5, 6, 1]), *(frame(name, SETS[name]) for name in ('move', 'movr'))
    session(p, 'zero between sets', *((unit, 7) for unit in (steps, b'zero', counted, b'zero', frame('mov', SETS['mov']), b'zero', b'gmov', steps)))
    session(p, 'zero in a piece', (steps + b'zerogpos' + steps + b'zero', 7))
    piece = b'gpos' + move + steps + b'gpos' + movr + b'zerogpos'
    session(p, 'moves in a piece', (piece, 7), (piece[22:], 7), (piece[70:], 7))


def inside(p, label, unit, places):
    """A report of the drive at each of these places of a unit."""
    for place in places:
        session(p, f'{label} cut at {place}', (unit[:place], 7), (REPORTED, None), (unit[place:], 7))


def drives(p):
    """02, P5: reports of the drive among calls: each number at its edges, inside every command, and what they leave."""
    for k, field in enumerate(ROWS['pos'].fields):
        for n in edges(field):
            told = STOOD[:k] + [n] + STOOD[k + 1:]
            session(p, f'told {shown(told)}', (b'gpos', 7), (told, None), (b'gpos', 7))
    for name in ('gpos', 'zero', *TRAVELS):
        unit = frame(name, SETS[name]) if name in TRAVELS else name.encode()
        inside(p, name, unit, range(1, len(unit)))
    for name in [*ORDERS, *('g' + block for block in BLOCKS), UNKNOWN.decode()]:
        inside(p, name, name.encode(), [2])
    for block in BLOCKS:
        unit = frame(block, SETS[block])
        inside(p, f'set {block}', unit, [len(unit) // 2])
    for flags in (1, 2, 3):
        inside(p, f'spos, flags {flags}', frame('spos', SETS['spos'][:3] + [flags]), [25])
    # one that is refused is none; any other keeps what is unfinished, and the wait goes on
    session(p, 'refused', (b'gp', 7), ([1, 256, 2], None), (b'os', 7))
    for now in (400, 401):
        session(p, f'told, then {now} ms', (b'st', 0), (STOOD, None), (b'op', now))
        session(p, f'told, then the time {now}', (b'st', 0), (STOOD, None), (None, now), (b'op', 100))
    move = frame('move', SETS['move'])
    for now in (400, 401):
        session(p, f'half a move, then {now} ms', (move[:9], 0), (None, now), (move[9:], 100))
    p.fresh()
    p.hold(b'\0', 1)
    p.say('unfinished 00, drive')
    p.drive(STOOD)


def set_all(p):
    """A board that has taken a set of every block, and holds half a command."""
    p.fresh()
    for block in BLOCKS:
        p.say(f'set {block}, reserved not zero')
        p.call(frame(block, SETS[block], reserved=255))
    p.say('half a command')
    p.call(UNKNOWN + b'st')


def handed_out(p, label, *rooms):
    for room in rooms:
        p.say(f'{label} handed out, room {room}')
        p.hand_out(room)


def refused_in(table):
    """The same settings with one number that is refused, and its label."""
    for block, k, n in REFUSED:
        at = model.place(block)
        yield f'{FIELDS[block][k]} {n}', table[:at.start] + replaced(block, SETS[block], k, n) + table[at.stop:]


def tables(p):
    """02, P10: the settings handed out, and taken back in other lengths, unsound, and as they were; then sets and gets on that board."""
    set_all(p)
    before = model.place('ctl').start  # what a table had before 02, P6
    handed_out(p, ' ', 0, before, TABLE - 1, TABLE, TABLE + 1)
    stored = bytes(p.board.table)
    for label, data in [
            ('nothing', b''), ('a table of before', stored[:before]), ('one byte short', stored[:-1]), ('one byte more', stored + b'\0'),
            ('zeros, one too few', bytes(TABLE - 1)), ('zeros', bytes(TABLE)), *refused_in(stored), ('fresh', bytes(Board().table)),
            ('as it was', stored)]:
        p.say(f'taken back, {label}')
        p.take_back(data)
        handed_out(p, ' ', TABLE)
    for block in BLOCKS:
        for unit in (b'g' + block.encode(), frame(block, fresh(block), reserved=255)):
            p.say(f'then {unit[:4].decode()}')
            p.call(unit)
        handed_out(p, ' ', TABLE)
    p.hold(b'\0', 1)
    handed_out(p, 'unfinished 00,', TABLE - 1, TABLE)


def refused(p, block):
    """What stays where a board is refused for its settings."""
    p.note(5, 3, 2)
    p.place(STOOD)
    p.hold(b'st', 2, 3)
    p.say('  bytes')
    p.call(b'op')
    p.say('  clock')
    p.report(1000)
    p.say('  drive')
    p.drive(REPORTED)
    handed_out(p, ' ', TABLE - 1, TABLE)
    p.say('  block')
    p.block(block)


def reserved(p):
    """02, P10, "reserved bytes zero in a sound state": each that is not, in stored settings and on a board."""
    for block in BLOCKS:
        at = model.place(block)
        for place in range(at.start + model.used(block), at.stop):
            p.say(f'taken back, byte {place} not zero')
            p.take_back(one_more(Board().table, place))
            p.write(place, b'\x80')
            p.say('  on a board')
            p.call(STOP)
        refused(p, block)


def buffers(p):
    """Bytes past the reply keep their value; spare bytes held are zero after a call that took a byte, and no cause for 3."""
    for label, piece, room in [
            ('nothing', b'', FRAME), ('no reply', b'sto', FRAME), ('zero', b'\0', FRAME), ('errc', UNKNOWN, FRAME),
            ('errd', b'spwr' + bytes(16), FRAME), ('errv', SPWR, FRAME), ('set', frame('brk', SETS['brk']), FRAME), ('get', b'gpwr', FRAME),
            ('order', b'home\0', FRAME), ('move', frame('move', SETS['move']) + b'\0', FRAME), ('gpos', b'gpos', FRAME),
            ('five replies', b'\0gpwr' + UNKNOWN + b'\0gbrk', FRAME + 16), ('all of the room', b'gctl', FRAME),
            ('one byte left', b'gctl\0\0', FRAME + 1), ('refused', b'stop', FRAME - 1), ('refused', b'x' * (PIECE + 1), FRAME)]:
        p.fresh()
        p.say(f'buffer, room {room}, {label}')
        p.call(piece, room=room, show=FRAME + 32)
    p.fresh()
    p.hold(b'smov' + b'\xff' * (FRAME - 4), 4, 7)
    p.say('spare bytes')
    p.keeps()
    for label, piece in [('an empty piece', b''), ('one byte', b'\0')]:
        p.say(f'spare bytes, {label}')
        p.call(piece)
        p.say('  held')
        p.keeps()


def arithmetic(p):
    """The checksum's vectors of 01; signed numbers at their ends."""
    for label, data in [('nothing', b''), ('00', b'\0'), ('FF', b'\xff'), ('FF FF', b'\xff\xff'), ('123456789', b'123456789')]:
        p.say(f'crc {label}')
        p.checksum(data)
    for n in (0, 32767, 32768, 65535):
        p.say(f'i16 {n}')
        p.integer(n)


def main():
    p = Player()
    for cases in (arithmetic, sheet, unsound, stops, blocks, fields, pendant, requests, refusals, reports, travels, zeros, drives, tables, reserved,
                  buffers):
        cases(p)
    folder = os.path.join(os.path.dirname(os.path.abspath(__file__)), '..', 'crates', 'player')
    store(folder, {'stdin': p.stdin, 'stdout': p.stdout.encode()})


if __name__ == '__main__':
    main()
