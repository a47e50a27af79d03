#!/usr/bin/env python3
"""inputs.py [FOLDER]: writes the inputs of bench/run, stack.in, memory.in and calls.in, beside this file or into the folder.

Each is a loop without end at user level with virtual addressing and the stack cache on; the budget of its one run ends it.
    stack   sums over words of the stack, all of them in the stack cache
    memory  words copied between two arrays through pointers, and bytes and half-words of them summed
    calls   a recursion of 15 frames of 32 bytes, more than the stack cache holds, so that ENTER flushes and CATCH fills
"""
import os
import sys

HERE = os.path.dirname(os.path.abspath(__file__))
sys.path.insert(0, os.path.join(HERE, '..', 'tests'))
from frames import (ABSOLUTE, DYADIC, IMMEDIATE, INDIRECT, STACK, Conversation, five, flow, short, stacked, three)  # noqa: E402

TEXT = 0x1000


def board():
    c = Conversation()
    c.identity(0x8000, 0x9000, flags=0x1F)
    c.register('CONFIG', 0x40000)
    c.register('SP', 0x3F00)
    c.register('MSP', 0x4000)
    c.register('SHAD', 0x3F00)
    c.register('PSW', 0x10600)
    return c


def started(c, text, steps):
    c.text(TEXT, text)
    c.register('PC', TEXT)
    c.run(steps)
    return c


def stack():
    c = board()
    # R16 to R76 get a value each, R8 the sum, R12 a limit; a sum past the limit starts anew
    text = [p for k in range(4, 20) for p in short('MOV_CS', k - 4, k)]
    text += three(DYADIC['MOV'], IMMEDIATE, 0x7000, STACK, 12)
    again = len(text)
    text += short('MOV_CS', 0, 2)
    loop = len(text)
    text += [p for k in range(4, 20) for p in short('ADD_SS', k, 2)]
    text += short('ADD3_SS', 4, 5) + short('MOV_SS', 1, 4) + short('AND_SS', 3, 4)
    text += short('CMPGT_SS', 2, 3)
    text += flow('JMPFY', loop - len(text))
    text += flow('JMP', again - len(text))
    return started(c, text, 10000000)


def memory():
    c = board()
    source, destination, size = 0x5000, 0x6000, 0x400
    for i in range(0, size, 32):
        c.words(source + i, [(source + i + 4 * k) * 0x01000193 for k in range(8)])
    # R8 and R12 point into the arrays, R16 is the end, R20 and R24 the sums
    text = five(DYADIC['MOV'], IMMEDIATE, source + size, STACK, 16)
    again = len(text)
    text += five(DYADIC['MOV'], IMMEDIATE, source, STACK, 8) + five(DYADIC['MOV'], IMMEDIATE, destination, STACK, 12)
    loop = len(text)
    text += short('MOV_II', 2, 3)
    text += three(DYADIC['ADD'], 0x9, 8, STACK, 20) + three(DYADIC['ADD'], 0xA, 12, STACK, 24)
    text += short('ADD_CS', 4, 2) + short('ADD_CS', 4, 3)
    text += short('CMPEQ_SS', 2, 4)
    text += flow('JMPFY', loop - len(text))
    text += five(DYADIC['XOR'], INDIRECT, 8, ABSOLUTE, destination + size)
    text += flow('JMP', again - len(text))
    return started(c, text, 10000000)


def calls():
    c = board()
    # f(n), its argument in the caller's R4: f(n - 1) unless n is 0, then R4 of the caller is one more
    function = stacked('ENTER', -2) + short('CMPEQ_CS', 0, 9) + flow('JMPTY', 7)
    function += short('MOV_SS', 9, 1) + short('ADD_CS', -1, 1) + flow('CALL', -5) + stacked('CATCH', 2)
    function += short('ADD_SS', 1, 9) + short('ADD_CS', 1, 9) + stacked('RETURN', 2)
    text = short('MOV_CS', 15, 1) + flow('CALL', 3) + stacked('CATCH', 16) + flow('JMP', -3)
    return started(c, text + function, 10000000)


if __name__ == '__main__':
    for make in (stack, memory, calls):
        with open(os.path.join(sys.argv[1] if len(sys.argv) > 1 else HERE, make.__name__ + '.in'), 'w') as f:
            f.write(str(make()))
