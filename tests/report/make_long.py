#!/usr/bin/env python3
"""Writes the stored pairs that are too long to be written by hand. Their outputs are worked out from docs/RULES.md, as the comments
say, and not taken from a program.

Usage: make_long.py DIRECTORY
"""
import os
import sys

DIRECTORY = sys.argv[1]

# A short text that is complete, and what is printed for its lines.
RECORD, LIMIT, PRICE = '(record 0 1 0)\n', '(limit 3)\n', '(price 1 4)\n'
PATH = '(path (size 1 loss 1) (break 1 2) (size 3 loss 0))\n'
ANSWER = '(price 1 4 (runs 3) (loss 0) (run 1 1 0) (run 2 2 1) (run 3 3 0))\n'
GOOD = RECORD + LIMIT + PRICE


def put(name, text, output):
    for end, content in (('.in', text), ('.out', output)):
        with open(os.path.join(DIRECTORY, name + end), 'wb') as file:
            file.write(content.encode('latin-1'))


def record(samples):
    return '(record ' + ' '.join(map(str, samples)) + ')\n'


def refused(number):
    return '(refused %d)\n' % number


def note_of(length):
    """A note line of so many bytes, its byte 10 included."""
    return '(note ' + '.' * (length - 8) + ')\n'


def filled(text, length):
    return text + note_of(length - len(text))


def counts():
    rest = '(limit 1)\n(price 1 1)\n'
    put('count-512', record([1] * 512) + rest, '(path (size 1 loss 0))\n(price 1 1 (runs 1) (loss 0) (run 1 512 1))\n')
    put('count-513', record([1] * 513) + rest, refused(2))
    put('count-512-out-of-range', record([1] * 511 + [32768]) + rest, refused(11))
    put('count-513-first-out-of-range', record([-32769] + [1] * 512) + rest, refused(11))
    put('count-513-last-out-of-range', record([1] * 512 + [32768]) + rest, refused(11))
    put('count-513-minus-zero', record([1] * 512 + ['-0']) + rest, refused(11))
    put('count-513-blank-inside', record([1] * 513 + ['']) + rest, refused(11))
    put('count-513-unended', record([1] * 513)[:-1], refused(11))
    put('count-513-out-of-place', RECORD + record([1] * 513), refused(11))
    put('count-513-after-limit', GOOD + record([1] * 513), PATH + ANSWER + refused(11))
    put('count-8187', record([1] * 8187), refused(2))       # a text of 16,383 bytes


def signals():
    # 256 of the lowest and 256 of the highest: the sum is -256, the mean -1/2, the level -1, and the loss
    # 256 x 32767^2 + 256 x 32768^2. Two segments have the loss 0, and so larger sizes are skipped.
    halves = record([-32768] * 256 + [32767] * 256)
    one = '(runs 1) (loss 549739036928) (run 1 512 -1))\n'
    two = '(runs 2) (loss 0) (run 1 256 -32768) (run 257 512 32767))\n'
    put('halves-limit-1', halves + '(limit 1)\n(price 1 1)\n', '(path (size 1 loss 549739036928))\n(price 1 1 ' + one)
    put('halves-limit-32', halves + '(limit 32)\n(price 549739036927 1)\n(price 549739036928 1)\n',
        '(path (size 1 loss 549739036928) (break 549739036928 1) (size 2 loss 0))\n(price 549739036927 1 ' + two +
        '(price 549739036928 1 ' + one)
    put('halves-and-one', record([-32768] * 256 + [32767] * 257) + '(limit 1)\n', refused(2))
    # 32 blocks of 16 samples, 0 and 1 in turn. A segment of b blocks has the loss 16 x (b // 2), since its level is that of the
    # more frequent blocks. So an odd number of blocks is best for all segments but perhaps one, and the losses are 256 for one
    # segment and 256 - 8 k for an even number k; an odd number has that of the one below. The breakpoint before size 2 is 16/1
    # and all others are 16/2, so that the sizes between 2 and 32 are dropped; the last one is 240/30.
    blocks = record([i // 16 % 2 for i in range(512)])
    runs = ''.join(' (run %d %d %d)' % (16 * i + 1, 16 * i + 16, i % 2) for i in range(32))
    # At size 2 one end block is cut off, the first one, since the last start is then earlier.
    put('blocks', blocks + '(limit 32)\n(price 16 1)\n(price 15 1)\n(price 8 1)\n(price 7 1)\n(price 0 65535)\n',
        '(path (size 1 loss 256) (break 16 1) (size 2 loss 240) (break 240 30) (size 32 loss 0))\n'
        '(price 16 1 (runs 1) (loss 256) (run 1 512 0))\n'
        '(price 15 1 (runs 2) (loss 240) (run 1 16 0) (run 17 512 1))\n'
        '(price 8 1 (runs 2) (loss 240) (run 1 16 0) (run 17 512 1))\n'
        '(price 7 1 (runs 32) (loss 0)' + runs + ')\n(price 0 65535 (runs 32) (loss 0)' + runs + ')\n')


def weights():
    # One sample and the limit 32: there is one size, with the weight 1. 32 weights are as many as the limit, and more are too many.
    start = '(record 0)\n(limit 32)\n'
    path = '(path (size 1 loss 0 weight 1))\n'

    def row(weights):
        return start + '(weights ' + ' '.join(map(str, weights)) + ')\n'
    rising = list(range(1, 2001))
    put('weights-32', row(rising[:32]), path)
    put('weights-32-last-largest', row(rising[:31] + [65535]), path)
    put('weights-32-last-out-of-range', row(rising[:31] + [65536]), refused(5))
    put('weights-33', row(rising[:33]), refused(14))
    put('weights-33-last-out-of-range', row(rising[:32] + [0]), refused(5))
    put('weights-33-last-of-15-digits', row(rising[:32] + [10 ** 15 - 1]), refused(5))
    put('weights-33-last-of-16-digits', row(rising[:32] + [10 ** 15]), refused(11))
    put('weights-34', row(rising[:34]), refused(14))
    put('weights-34-last-out-of-range', row(rising[:33] + [0]), refused(5))
    put('weights-34-one-before-out-of-range', row(rising[:32] + [0, 34]), refused(5))
    put('weights-2000', row(rising[:2000]), refused(14))
    put('weights-2000-last-out-of-range', row(rising[:1999] + [0]), refused(5))
    put('weights-2000-last-leading-zero', row(rising[:1999] + ['02000']), refused(11))
    put('weights-8160-equal', row([1] * 8160), refused(14))
    put('weights-8160-last-out-of-range', row([1] * 8159 + [0]), refused(5))


def lengths():
    put('length-16383', filled(GOOD, 16383), PATH + ANSWER)
    put('length-16384', filled(GOOD, 16384), PATH + ANSWER)
    put('length-16385', filled(GOOD, 16385), refused(11))
    put('length-20000', filled(GOOD, 20000), refused(11))
    put('length-16384-note-first', note_of(16384 - len(GOOD)) + GOOD, PATH + ANSWER)
    put('length-16385-note-first', note_of(16385 - len(GOOD)) + GOOD, refused(11))
    prices = 1361 * PRICE
    put('length-16384-prices', filled(GOOD + prices, 16384), PATH + 1362 * ANSWER)
    put('length-16385-prices', filled(GOOD + prices, 16385), refused(11))
    put('length-16384-unended', filled(GOOD, 16383) + 'x', PATH + ANSWER + refused(11))
    put('length-16384-unended-note', filled(GOOD, 16385)[:-1], PATH + ANSWER + refused(11))
    put('length-16385-last-line-empty', filled(GOOD, 16384) + '\n', refused(11))
    put('length-16384-refused-1', filled('(record)\n', 16384), refused(1))
    put('length-16385-refused-1', filled('(record)\n', 16385), refused(11))
    put('length-16384-refused-3', filled(RECORD + '(limit 0)\n', 16384), refused(3))
    put('length-16385-refused-3', filled(RECORD + '(limit 0)\n', 16385), refused(11))
    put('length-16384-no-limit', filled(RECORD, 16384), refused(11))
    put('length-16384-one-line', '(' * 16384, refused(11))
    put('length-16385-empty-lines', '\n' * 16385, refused(11))
    put('length-16384-deep', GOOD + '(note ' + '(' * (16384 - len(GOOD) - 7) + '\n', PATH + ANSWER + refused(11))


counts()
signals()
weights()
lengths()
