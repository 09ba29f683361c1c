"""The board and the host in Python, written from sheets 01 and 02 alone, for ./make.py and ../traces: it shares nothing with the crates."""
import struct
from typing import Callable, NamedTuple

ANY = None
BITS = 'bits'


class Row(NamedTuple):
    """Fields (format, least, most) or (format, BITS, known bits), the count of reserved bytes, and a rule over the numbers of the fields."""
    fields: list
    reserved: int
    rule: Callable = lambda numbers: True


# 01's blocks by name, in its order: the host has these
SHEET = {
    'mov': Row([('I', 0, 100000), ('B', ANY), ('H', 1, 65535), ('H', 1, 65535), ('I', 0, 100000), ('B', ANY)], 10),
    'eng': Row([('H', ANY), ('H', 15, 8000), ('I', 1, 100000), ('B', ANY), ('H', BITS, 0xFF), ('h', ANY), ('B', 1, 9), ('H', 1, 65535)], 12),
    'pwr': Row([('B', 0, 100), ('H', ANY), ('H', ANY), ('H', ANY), ('B', BITS, 0x07)], 6),
    'eds': Row([('B', BITS, 0x0F), ('B', BITS, 0x07), ('i', ANY), ('h', -255, 255), ('i', ANY), ('h', -255, 255)], 6),
    'hom': Row([('I', 0, 100000), ('B', ANY), ('I', 0, 100000), ('B', ANY), ('i', ANY), ('h', -255, 255), ('H', BITS, 0x1FF)], 9),
    'brk': Row([('H', ANY), ('H', ANY), ('H', ANY), ('H', ANY), ('B', BITS, 0x03)], 10),
    'pid': Row([('H', ANY), ('H', ANY), ('H', ANY), ('F', ANY), ('F', ANY), ('F', ANY)], 24),
}
# 02, P5: the position, and the sets of blocks 8 to 10, by the set's own name
POSITION = Row([('i', ANY), ('h', -255, 255), ('q', ANY)], 6)
TRAVEL = Row([('i', ANY), ('h', -255, 255)], 6)
TRAVELS = {'move': TRAVEL, 'movr': TRAVEL, 'spos': Row(POSITION.fields + [('B', BITS, 0x03)], 5)}
# the blocks that 02 adds, from 11 on. P6: "array elements count as fields one by one"; "first speed and its part are not both zero,
# low ≤ centre ≤ high"
LATER = {
    'ctl': Row([('I', 0, 100000)] * 10 + [('B', ANY)] * 10 + [('H', ANY)] * 9 + [('H', ANY), ('H', BITS, 0x0F), ('i', ANY), ('h', -255, 255)], 9,
               lambda numbers: numbers[0] != 0 or numbers[10] != 0),
    'joy': Row([('H', 0, 10000)] * 3 + [('B', ANY), ('B', ANY), ('B', BITS, 0x01)], 7,
               lambda numbers: numbers[0] <= numbers[1] <= numbers[2]),
}
RULE = 99  # the field of a broken rule
BLOCKS = {**SHEET, **LATER}  # what a board keeps
ROWS = {**BLOCKS, 'pos': POSITION, **TRAVELS}
NUMBERED = [*SHEET, *TRAVELS, *LATER]
ORDERS = ['stop', 'sstp', 'pwof', 'left', 'rigt', 'home', 'loft']
NO_ORDER = (0,)  # an order is its number, and the steps and microsteps that it carries
ERRORS = ['errc', 'errd', 'errv']
NAN = 0x7FC00000
PIECE = 250  # the longest piece


# ---- blocks

def number_of(name):
    """A block's number in 01 and 02."""
    return NUMBERED.index(name) + 1


def set_name(name):
    return name if name in TRAVELS else 's' + name


SETS = {set_name(name): name for name in NUMBERED}
GETS = {'g' + name: name for name in BLOCKS}


def crc(data):
    register = 0xFFFF
    for byte in data:
        register ^= byte
        for _ in range(8):
            register = register >> 1 ^ (0xA001 if register & 1 else 0)
    return struct.pack('<H', register)


def layout(name):  # a float is kept as its 32 bits
    return '<' + ''.join(f[0] for f in ROWS[name].fields).replace('F', 'I')


def used(name):
    """The bytes of its fields, which the reserved ones follow."""
    return struct.calcsize(layout(name))


def size(name):
    """The bytes of its data section."""
    return used(name) + ROWS[name].reserved


def total(name):
    return 4 + size(name) + 2


FRAME = max(map(total, ROWS))  # the longest frame, which is the least room and what the board can hold
HOST_FRAME = max(map(total, SHEET))  # the longest that the host has


def passes(field, n):
    if field[0] == 'F':
        return n >> 23 & 255 != 255
    if field[1] is BITS:
        return n & ~field[2] == 0
    return field[1] is ANY or field[1] <= n <= field[2]


def first_bad(name, numbers):
    """The number of the first field out of its range, or else RULE where the rule is broken, or else 0."""
    row = ROWS[name]
    return next((k + 1 for k, f in enumerate(row.fields) if not passes(f, numbers[k])), 0 if row.rule(numbers) else RULE)


def fresh(name):
    numbers = [next(n for n in range(20) if passes(f, n)) for f in ROWS[name].fields]
    return [1] + numbers[1:] if name == 'ctl' else numbers  # 02, P6: "the first speed is 1, the rest 0"


def section(name, numbers, reserved=0):
    return struct.pack(layout(name), *numbers) + bytes([reserved]) * ROWS[name].reserved


def numbers_in(name, data):
    """The fields of a data section. Every NaN pattern is the one NaN."""
    numbers = struct.unpack_from(layout(name), data)
    return [NAN if f[0] == 'F' and n % 2**31 > 0x7F800000 else n for f, n in zip(ROWS[name].fields, numbers)]


def cleaned(name, data):
    """A data section with its reserved bytes zero."""
    return data[:used(name)] + bytes(ROWS[name].reserved)


def place(name):
    """Where a block stands in the table of the settings: "the blocks in number order" (02, P10)."""
    before = sum(size(block) for block in BLOCKS if number_of(block) < number_of(name))
    return slice(before, before + size(name))


TABLE = sum(map(size, BLOCKS))


def is_good(table):
    """Whether every field of a table is in its range, every rule kept and every reserved byte zero."""
    parts = [(name, table[place(name)]) for name in BLOCKS]
    return all(first_bad(name, numbers_in(name, data)) == 0 and data == cleaned(name, data) for name, data in parts)


def framed(name, data, wrong=0):
    low, high = crc(data)
    return name.encode() + data + bytes([low ^ wrong, high])


def frame(name, numbers, reserved=0, wrong=0):
    """A set's frame; `wrong` goes into its CRC."""
    return framed(set_name(name), section(name, numbers, reserved), wrong)


# ---- the board

def shown(values):
    """An order, or a position, as the programs print it."""
    return ':'.join(map(str, values))


class Board:
    """The bytes held, `count` of which are unfinished, and the rest of a board's state. A board may be made that is not sound."""

    def __init__(self):
        self.table, self.position = bytearray(b''.join(section(name, fresh(name)) for name in BLOCKS)), fresh('pos')
        self.flags, self.refused = 0, (0, 0)
        self.held, self.count, self.last = bytes(FRAME), 0, 0

    def hold(self, unit):
        self.held, self.count = unit + bytes(FRAME - len(unit)), len(unit)

    def is_begun(self):
        """Whether the unfinished bytes are none or a true beginning of one unit."""
        if self.count < 4:
            return self.count == 0 or self.held[0] != 0
        name = self.held[:4].decode('latin1')
        return name in SETS and self.count < total(SETS[name])

    def is_sound(self):
        return self.is_begun() and self.flags <= 7 and not first_bad('pos', self.position) and is_good(self.table)

    def answer(self, unit):
        """Reply, order, and a flag with the field refused, or what is to be kept, of a whole unit; None where it is not whole yet."""
        if unit[0] == 0:
            return b'\0', NO_ORDER, None
        if len(unit) < 4:
            return None
        name = unit[:4].decode('latin1')
        if name in ORDERS:
            return unit[:4], (ORDERS.index(name) + 1,), None
        if name == 'zero':
            return unit[:4], NO_ORDER, ('pos', [0, 0, self.position[2]])
        if name == 'gpos':
            return framed(name, section('pos', self.position)), NO_ORDER, None
        if name in GETS:
            return framed(name, bytes(self.table[place(GETS[name])])), NO_ORDER, None
        if name in SETS:
            return self.answer_set(SETS[name], unit) if len(unit) == total(SETS[name]) else None
        return b'errc', NO_ORDER, (1, None)

    def answer_set(self, name, unit):
        if crc(unit[4:-2]) != unit[-2:]:
            return b'errd', NO_ORDER, (2, None)
        numbers = numbers_in(name, unit[4:])
        bad = first_bad(name, numbers)
        if bad:
            return b'errv', NO_ORDER, (4, (number_of(name), bad))
        if name in ('move', 'movr'):  # the order has the block's number
            return unit[:4], (number_of(name), *numbers), None
        return unit[:4], NO_ORDER, ('pos', self.moved(*numbers)) if name == 'spos' else (name, cleaned(name, unit[4:-2]))

    def moved(self, steps, microsteps, count, flags):
        """The position that an spos leaves."""
        stood = self.position
        return (stood[:2] if flags & 1 else [steps, microsteps]) + (stood[2:] if flags & 2 else [count])

    def keep(self, change):
        kind, what = change
        if kind in BLOCKS:
            self.table[place(kind)] = what
        elif kind == 'pos':
            self.position = what
        else:
            self.flags, self.refused = self.flags | kind, what or self.refused

    def call(self, piece, stamp, room):
        """Number, taken, order and reply."""
        if len(piece) > PIECE:
            return 1, 0, NO_ORDER, b''
        if room < FRAME:
            return 2, 0, NO_ORDER, b''
        if not self.is_sound():
            return 3, 0, NO_ORDER, b''
        taken, reply = 0, b''
        for byte in piece:
            late = (stamp - self.last) % 2**32 > 400
            unit = (b'' if late else self.held[:self.count]) + bytes([byte])
            said = self.answer(unit)
            if said and len(reply + said[0]) > room:
                break
            taken, self.last = taken + 1, stamp
            self.hold(b'' if said else unit)
            if said:
                reply += said[0]
                if said[2]:
                    self.keep(said[2])
                if said[1] != NO_ORDER:
                    return 0, taken, said[1], reply
        return 0, taken, NO_ORDER, reply

    def report_time(self, now):
        """The number of a report of the time."""
        if not self.is_sound():
            return 3
        if self.count and (now - self.last) % 2**32 > 400:
            self.hold(b'')
        return 0

    def report_position(self, position):
        """The number of a report of the drive's position: steps, microsteps, count."""
        if not self.is_sound():
            return 3
        if first_bad('pos', position):
            return 5
        self.position = position
        return 0

    def hand_out(self, buffer):
        """Number and buffer of the table handed out."""
        if len(buffer) < TABLE:
            return 2, buffer
        if not self.is_sound():
            return 3, buffer
        return 0, bytes(self.table) + buffer[TABLE:]


def take_back(data):
    """Number of a stored table, and the board that takes it back."""
    board = Board()
    if len(data) != TABLE:
        return 1, board
    if not is_good(data):
        return 3, board
    board.table[:] = data
    return 0, board


# ---- the host: "later commands stay outside" (02, P1)

def written(data, bad, buffer):
    """Number, length and buffer of a writer that has this frame to write, the first field out of range known."""
    if bad:
        return 3, 0, buffer
    if len(buffer) < len(data):
        return 4, 0, buffer
    return 0, len(data), data + buffer[len(data):]


def write_get(block, buffer):
    return written(b'g' + block.encode(), 0, buffer)


def write_order(order, buffer):
    return written(order.encode(), 0, buffer)


def write_set(block, numbers, buffer):
    return written(frame(block, numbers), first_bad(block, numbers), buffer)


def read(data):
    """Number and length of the answer at the front, and what it is: `zero`, or its name with the data section, if it has one."""
    if data[:1] == b'\0':
        return 0, 1, 'zero', None
    if len(data) < 4:
        return 5, 0, None, None
    name = data[:4].decode('latin1')
    if name[0] == 'g' and name[1:] in SHEET:
        size = total(name[1:])
        if len(data) < size:
            return 7, 0, None, None
        if crc(data[4:size - 2]) != data[size - 2:size]:
            return 8, 0, None, None
        return 0, size, name, section(name[1:], numbers_in(name[1:], data[4:]))
    if name in ORDERS + ERRORS or name[0] == 's' and name[1:] in SHEET:
        return 0, 4, name, None
    return 6, 0, None, None
