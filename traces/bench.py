"""The bench in Python, over the model of the board in ../cases, for ./make.py."""
import os
import struct
import sys

sys.path.insert(0, os.path.join(os.path.dirname(os.path.abspath(__file__)), '..', 'cases'))
from model import Board, shown

RECORD, ROOM = 250, 250  # a record's most bytes; the reply room


def bench(trace):
    if len(trace) > 60000:
        return 'too long\n'
    board, at, lines = Board(), 0, []
    while at < len(trace):
        head = trace[at:at + 7]
        if head[:2] != b'LK' or len(head) < 7 or head[6] > RECORD or len(trace) < at + 7 + head[6]:
            lines.append(f'bad {at}')
            break
        stamp, piece = struct.unpack('<I', head[2:6])[0], trace[at + 7:at + 7 + head[6]]
        at += 7 + len(piece)
        first = True
        while first or piece:
            number, taken, order, reply = board.call(piece, stamp, ROOM)
            lines.append(f'{stamp} {taken} {shown(order)} {reply.hex() or "-"}')
            piece, first = piece[taken:], False
    return '\n'.join(lines + [f'flags {board.flags} unfinished {board.count}']) + '\n'


def record(stamp, piece):
    return b'LK' + struct.pack('<IB', stamp, len(piece)) + piece
