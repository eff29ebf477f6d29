#!/usr/bin/env python3
"""A reference of the report, written from docs/RULES.md alone: section 9 for the text, sections 2 to 4 for the figures.

Usage: reference.py [FAULT] < INPUT
The same fault can be given in the environment, as FAULT=name. 'reference.py --faults' lists them. A planted fault makes the
reference wrong in one point; a comparison that is worth something notices each of them.
"""
import functools
import math
import operator
import os
import sys

MOST_BYTES = 16384
MOST_SAMPLES = 512
MOST_SEGMENTS = 32
MOST_DIGITS = 15
MOST_DEPTH = 8
TOP = 2 ** 44

FAULTS = {
    # lines, forms and words
    'unended-taken': 'a last line without its byte 10 is taken',
    'unended-late': 'an unended last line is answered before its 11',
    'unended-note': 'a note as an unended last line is taken',
    'empty-line': 'an empty line is passed over',
    'trailing-blank': 'a blank behind a form is taken',
    'leading-blank': 'a blank before a form is taken',
    'double-blank': 'two blanks together are taken as one',
    'blank-inside': 'a blank before the closing bracket is taken',
    'tab-blank': 'a tab is taken as a blank',
    'carriage-return': 'a carriage return before byte 10 is passed over',
    'capitals': 'a word in capital letters is taken',
    'text-behind': 'what stands behind the closing bracket of a price is passed over',
    # figures
    'leading-zero': 'a leading zero is taken',
    'minus-zero': '-0 is taken',
    'plus': 'a plus before a figure is taken',
    'minus-limit': 'a minus before a limit or a penalty is a figure out of range',
    'digits-16': '16 digits are taken',
    'digits-14': '15 digits are refused',
    'sample-wraps': 'a sample out of range is taken as 16 bits of it',
    'sample-low': 'a sample of -32,768 is refused',
    'sample-high': 'a sample of 32,768 is taken',
    # notes
    'depth-9': 'a note nine deep is taken',
    'depth-7': 'a note eight deep is refused',
    'note-127': 'byte 127 is taken in a note',
    'note-126': 'byte 126 is refused in a note',
    'note-tab': 'a tab is taken in a note',
    'note-high': 'bytes from 128 on are taken in a note',
    'note-word': '(notes) and (note(a)) are taken',
    'note-early': 'a note ends where its brackets first balance, and the rest of the line is passed over',
    'note-open': 'a note may lack closing brackets',
    'note-quotes': 'brackets between double quotes do not count',
    'note-first': 'a note before the record is refused',
    # order and judging
    'second-limit': 'a second limit replaces the first',
    'second-record': 'a second record before the limit replaces the first',
    'out-of-place': 'a limit before the record and a price before the limit are judged by their figures first',
    'count-first': 'a record is judged by 1, 2, 11',
    'samples-511': '512 samples are refused',
    'samples-513': '513 samples are taken',
    'limit-33': 'a limit of 33 is taken',
    'limit-short': 'a limit above the number of samples is refused',
    'p-over': 'p may be 2^44 + 1',
    'p-at': 'p must be below 2^44',
    'q-zero': 'q = 0 is taken',
    'q-over': 'q may be 65,536',
    'on-after-2': 'after 1 or 2 reading goes on',
    'on-after-3': 'after 3 reading goes on',
    'on-after-11': 'after 11 for a price reading goes on',
    'stop-after-4': 'after 4 reading stops',
    'no-end': 'an input without a record or a limit ends without 11',
    'path-soon': 'the path is printed with the limit',
    'path-end-lacks': 'at the end of the input no path is printed',
    'path-at-weights': 'a weights line that is refused prints the path first',
    'path-at-notes': 'a line that opens as a note and is refused prints the path first',
    'path-by-word': 'only the whole words note and weights keep the path waiting',
    'path-unended': 'an unended line never prints the path',
    'long-taken': '16,385 bytes are taken',
    'long-refused': '16,384 bytes are refused',
    'long-late': 'a long input is read up to its end, and 11 comes then',
    # weights
    'weights-none': '(weights) is taken as no weights',
    'weights-second': 'a second weights form replaces the first',
    'weights-late': 'weights after a price are taken and passed over',
    'weights-few': 'fewer weights than the limit are taken',
    'weights-many': 'more weights than the limit are taken',
    'weights-equal': 'weights may be equal',
    'weights-order': '14 comes before 5',
    'weights-zero': 'a weight of 0 is taken',
    'weights-high': 'a weight of 65,536 is taken',
    'weights-past-limit': '5 looks at as many weights as the limit says',
    'weights-far': '5 looks at the first 33 weights',
    'weights-silent': 'weights are not printed',
    'weights-shown': 'weights are printed without a weights form too',
    'break-by-size': 'breakpoints are divided by differences of sizes',
    'cost-by-size': 'the cost goes by sizes',
    'path-by-size': 'entries are tested by sizes',
    'on-after-14': 'after 5 or 14 reading goes on',
    # what is printed
    'break-reduced': 'breakpoints are reduced',
    'break-swapped': 'the parts of a breakpoint are exchanged',
    'break-places': 'the denominator of a breakpoint is 1',
    'price-reduced': 'p and q are printed reduced',
    'last-position': 'a segment ends at the start of the next one',
    'from-zero': 'positions count from 0',
    'reverse': 'the segments come last first',
    'price-echo': 'a refused price is repeated in its refusal',
    'last-line': 'the last output line does not end with byte 10',
    # figures of the signal
    'half-up': 'a mean at a half goes to the higher level',
    'truncated': 'a negative sum is divided with truncation',
    'keep-equal': 'an entry whose breakpoint equals the candidate stays',
    'larger-at-break': 'at a breakpoint the larger size is selected',
    'same-loss': 'a size that has the same loss as the one before is an entry',
    'greedy': 'the best next cut is made first',
    'late-ties': 'of equal segmentations the one with the latest last start is given',
    'first-cut': 'of equal segmentations the one with the earliest first cut is given',
}

FAULT = os.environ.get('FAULT', '')


class Refused(Exception):
    """A refusal by R67."""

    def __init__(self, number):
        super().__init__(number)
        self.number = number


def plant(fault):
    """Makes the reference wrong in one point; no fault with ''."""
    global FAULT
    if fault and fault not in FAULTS:
        raise ValueError('no such fault: ' + fault)
    FAULT = fault
    analysis.cache_clear()


# ---- The text (R60 to R66)

def refuse_if(cause, number=11):
    if cause:
        raise Refused(number)


def figure(item, signed=False):
    """The number that an item spells (R63)."""
    negative = item[:1] == b'-' and (signed or FAULT == 'minus-limit')
    digits = item[1:] if negative or (FAULT == 'plus' and item[:1] == b'+') else item
    most = {'digits-16': 16, 'digits-14': 14}.get(FAULT, MOST_DIGITS)
    refuse_if(not 1 <= len(digits) <= most or not all(48 <= byte <= 57 for byte in digits))
    refuse_if(len(digits) > 1 and digits[:1] == b'0' and FAULT != 'leading-zero')
    refuse_if(negative and digits == b'0' and FAULT != 'minus-zero')
    return -int(digits) if negative else int(digits)


def mended(line, word):
    """The line as the planted faults of its blanks and letters take it."""
    if FAULT == 'trailing-blank' and line.endswith(b') '):
        line = line[:-1]
    if FAULT == 'leading-blank' and line.startswith(b' ('):
        line = line[1:]
    if FAULT == 'double-blank':
        line = line.replace(b'  ', b' ')
    if FAULT == 'blank-inside' and line.endswith(b' )'):
        line = line[:-2] + b')'
    if FAULT == 'tab-blank':
        line = line.replace(b'\t', b' ')
    if FAULT == 'carriage-return' and line.endswith(b'\r'):
        line = line[:-1]
    if FAULT == 'capitals':
        line = line.lower()
    if FAULT == 'text-behind' and word == b'price' and b')' in line:
        line = line[:line.index(b')') + 1]
    return line


def items_of(line, word):
    """The items of a form with this word, as bytes: one blank stands before each (R62)."""
    line = mended(line, word)
    refuse_if(not line.startswith(b'(' + word) or not line.endswith(b')'))
    inside = line[len(word) + 1:-1]
    if not inside:
        return []
    first, *items = inside.split(b' ')
    refuse_if(first)
    return items            # an empty one, where blanks are too many, is no figure


def note_byte(byte):
    if FAULT == 'note-tab' and byte == 9:
        return True
    if FAULT == 'note-high' and byte >= 128:
        return True
    return 32 <= byte <= {'note-127': 127, 'note-126': 125}.get(FAULT, 126)


def is_note(line):
    """True if the line is a note (R64); other lines that begin as one are refused, since no form has a like word."""
    if not line.startswith(b'(note'):
        return False
    if FAULT == 'carriage-return' and line.endswith(b'\r'):
        line = line[:-1]
    refuse_if(line[5:6] not in (b' ', b')') and FAULT != 'note-word')
    refuse_if(not all(map(note_byte, line)))
    depth, most, quoted = 0, {'depth-9': 9, 'depth-7': 7}.get(FAULT, MOST_DEPTH), False
    for place, byte in enumerate(line):
        if FAULT == 'note-quotes' and byte == 34:
            quoted = not quoted
        if byte == 40 and not quoted:
            depth += 1
            refuse_if(depth > most)
        elif byte == 41 and not quoted:
            depth -= 1
            if depth == 0 and FAULT == 'note-early':
                return True
            refuse_if(depth == 0 and place + 1 < len(line))
    refuse_if(depth > 0 and FAULT != 'note-open')
    return True


# ---- The figures of a signal (sections 2 to 4)

def level_of(total, count):
    """The whole number nearest to total / count, the lower of two (R25)."""
    if FAULT == 'truncated' and total < 0:
        low = -(-total // count)
        return low if 2 * (total - low * count) <= count else low + 1
    low, over = divmod(total, count)
    return low if 2 * over < count or (2 * over == count and FAULT != 'half-up') else low + 1


def segment_losses(samples):
    """A list for each end: item i is the loss of the samples from i to this end (R26)."""
    columns = [[]]
    for end in range(1, len(samples) + 1):
        total = squares = 0
        column = [0] * end
        for start in range(end - 1, -1, -1):
            total += samples[start]
            squares += samples[start] ** 2
            count = end - start
            level = level_of(total, count)
            column[start] = squares - 2 * level * total + count * level * level
        columns.append(column)
    return columns


def least_losses(columns, largest):
    """Row k, item m: the least loss of the first m samples in exactly k segments (R27); none where m < k."""
    n = len(columns) - 1
    none = TOP * TOP
    rows = [[0] + [none] * n]
    for size in range(1, largest + 1):
        last = rows[-1]
        row = [none] * (n + 1)
        for end in range(size, n + 1):
            row[end] = min(map(operator.add, last[size - 1:end], columns[end][size - 1:]))
        rows.append(row)
    return rows


def starts_of(columns, rows, size):
    """The starts, from 0, of the best segmentation of this size whose last start is the earliest, and so on (R33)."""
    end = len(columns) - 1
    starts = []
    for k in range(size, 0, -1):
        sums = list(map(operator.add, rows[k - 1][:end], columns[end]))
        start = sums.index(rows[k][end])
        if FAULT == 'late-ties':
            start = end - 1 - sums[::-1].index(rows[k][end])
        starts.append(start)
        end = start
    return starts[::-1]


def first_cut_starts(samples, size):
    """The planted fault 'first-cut': the mirror image's latest last start."""
    n, k, starts = len(samples), size, [0]
    columns = segment_losses(samples[::-1])
    rows = least_losses(columns, size)
    end = n
    while k > 1:
        sums = list(map(operator.add, rows[k - 1][:end], columns[end]))
        end = end - 1 - sums[::-1].index(rows[k][end])
        starts.append(n - end)
        k -= 1
    return starts


def greedy_starts(columns, largest):
    """The planted fault 'greedy': for each size the starts of the size before and the best cut beside them."""
    n = len(columns) - 1
    lists = [[0]]
    while len(lists) < largest:
        tried = [sorted(lists[-1] + [cut]) for cut in range(n) if cut not in lists[-1]]
        lists.append(min(tried, key=lambda starts: loss_of(columns, starts)))
    return lists


def loss_of(columns, starts):
    return sum(columns[end][start] for start, end in zip(starts, starts[1:] + [len(columns) - 1]))


def path_of(losses, weights):
    """The path of models with the sizes 1, 2, 3, ..., these losses and these weights (R12 to R14, R30)."""
    path = []
    for size, (loss, weight) in enumerate(zip(losses, weights), 1):
        if path and (loss > path[-1][1] or (loss == path[-1][1] and FAULT != 'same-loss')):
            continue
        while len(path) > 1:
            (size_a, loss_a, weight_a), (size_b, loss_b, weight_b) = path[-2:]
            near, far = weight_b - weight_a, weight - weight_b
            if FAULT == 'path-by-size':
                near, far = size_b - size_a, size - size_b
            candidate = (loss_b - loss) * near
            before = (loss_a - loss_b) * far
            if candidate < before or (FAULT == 'keep-equal' and candidate == before):
                break
            path.pop()
        path.append((size, loss, weight))
    return path


def segments_line(samples, columns, starts):
    """What a price line says of a segmentation, as text (R71)."""
    text = ['(runs %d) (loss %d)' % (len(starts), loss_of(columns, starts))]
    runs = []
    for start, end in zip(starts, starts[1:] + [len(samples)]):
        first, last = start + 1, end
        if FAULT == 'last-position' and end < len(samples):
            last = end + 1
        if FAULT == 'from-zero':
            first, last = first - 1, last - 1
        runs.append('(run %d %d %d)' % (first, last, level_of(sum(samples[start:end]), end - start)))
    return ' '.join(text + (runs[::-1] if FAULT == 'reverse' else runs))


@functools.lru_cache(maxsize=20000)
def analysis(samples, limit, weights):
    """The path of a signal by weights (none: sizes), and for each size on it what a price line says of its segments."""
    columns = segment_losses(samples)
    largest = min(limit, len(samples))
    rows = least_losses(columns, largest)
    losses = [row[-1] for row in rows[1:]]
    if FAULT == 'greedy':
        greedy = greedy_starts(columns, largest)
        losses = [loss_of(columns, starts) for starts in greedy]
    path = path_of(losses, weights or range(1, largest + 1))
    texts = {}
    for size, _, _ in path:
        if FAULT == 'greedy':
            starts = greedy[size - 1]
        elif FAULT == 'first-cut':
            starts = first_cut_starts(samples, size)
        else:
            starts = starts_of(columns, rows, size)
        texts[size] = segments_line(samples, columns, starts)
    return path, texts


def breakpoints(path):
    """Numerator and denominator of each breakpoint (R11)."""
    by = 0 if FAULT == 'break-by-size' else 2
    return [(before[1] - entry[1], entry[by] - before[by]) for before, entry in zip(path, path[1:])]


def selected(path, p, q):
    """The size that the walk ends at (R20)."""
    costs = [q * loss + p * (size if FAULT == 'cost-by-size' else weight) for size, loss, weight in path]
    place = 0
    while place + 1 < len(path):
        here, there = costs[place], costs[place + 1]
        if not (there < here or (FAULT == 'larger-at-break' and there == here)):
            break
        place += 1
    return path[place][0]


# ---- What is judged and printed (R67 to R72)

def path_line(samples, limit, weights):
    path = analysis(samples, limit, weights)[0]
    shown = FAULT == 'weights-shown' or (weights and FAULT != 'weights-silent')
    words = ['(path']
    for place, (size, loss, weight) in enumerate(path):
        if place > 0:
            high, low = breakpoints(path)[place - 1]
            by = math.gcd(high, low) if FAULT == 'break-reduced' else 1
            low = 1 if FAULT == 'break-places' else low
            parts = (low, high) if FAULT == 'break-swapped' else (high // by, low // by)
            words.append('(break %d %d)' % parts)
        words.append('(size %d loss %d%s)' % (size, loss, ' weight %d' % weight if shown else ''))
    return ' '.join(words) + ')'


def read_record(line):
    items = items_of(line, b'record')
    if FAULT == 'count-first':
        refuse_if(not items, 1)
        refuse_if(len(items) > MOST_SAMPLES, 2)
    samples = tuple(figure(item, signed=True) for item in items)
    if FAULT == 'sample-wraps':
        samples = tuple((sample + 32768) % 65536 - 32768 for sample in samples)
    low, high = -32768 + (FAULT == 'sample-low'), 32767 + (FAULT == 'sample-high')
    refuse_if(not all(low <= sample <= high for sample in samples))
    refuse_if(not samples, 1)
    refuse_if(len(samples) > MOST_SAMPLES + (FAULT == 'samples-513') - (FAULT == 'samples-511'), 2)
    return samples


def read_limit(line):
    items = items_of(line, b'limit')
    refuse_if(len(items) != 1)
    limit = figure(items[0])
    refuse_if(not 1 <= limit <= MOST_SEGMENTS + (FAULT == 'limit-33'), 3)
    return limit


def read_weights(line, limit):
    items = items_of(line, b'weights')
    weights = tuple(map(figure, items))
    if not weights and FAULT == 'weights-none':
        return weights
    seen = weights[:{'weights-past-limit': limit, 'weights-far': 33}.get(FAULT)]
    in_range = all((FAULT != 'weights-zero') <= weight <= 65535 + (FAULT == 'weights-high') for weight in seen)
    refuse_if(not in_range and FAULT != 'weights-order', 5)
    refuse_if(len(weights) < limit and (FAULT != 'weights-few' or not weights), 14)
    refuse_if(len(weights) > limit and FAULT != 'weights-many', 14)
    rising = operator.le if FAULT == 'weights-equal' else operator.lt
    refuse_if(not all(map(rising, weights, weights[1:])), 14)
    refuse_if(not in_range, 5)
    return weights


def opens_waiting(line):
    """True if the path waits for the lines behind this one: by its first bytes alone."""
    words = (b'(note', b'(weights')
    if FAULT == 'path-at-weights':
        words = (b'(note',)
    if FAULT == 'path-at-notes':
        words = (b'(note ', b'(note)', b'(weights')
    if FAULT == 'path-by-word':
        words = (b'(note ', b'(note)', b'(weights ', b'(weights)')
    return line.startswith(words)


def read_price(line):
    items = items_of(line, b'price')
    refuse_if(len(items) != 2)
    p, q = map(figure, items)
    refuse_if(not 0 <= p <= TOP + (FAULT == 'p-over') - (FAULT == 'p-at'), 4)
    refuse_if(not (FAULT != 'q-zero') <= q <= 65535 + (FAULT == 'q-over'), 4)
    return p, q


def price_line(samples, limit, weights, line):
    """The line for a price; a refusal with 4 is one too (R68)."""
    try:
        p, q = read_price(line)
    except Refused as refused:
        if refused.number == 4 and FAULT == 'price-echo':
            return '(price %s (refused 4))' % line[7:-1].decode('latin-1')
        if refused.number == 4 and FAULT != 'stop-after-4':
            return '(refused 4)'
        if refused.number == 11 and FAULT == 'on-after-11':
            return '(refused 11)'
        raise
    path, texts = analysis(samples, limit, weights)
    by = math.gcd(p, q) if FAULT == 'price-reduced' else 1
    return '(price %d %d %s)' % (p // by, q // by, texts[selected(path, p, q)])


def judge_out_of_place(line, samples, limit):
    """The planted fault 'out-of-place': such a form's own numbers come before its 11."""
    if samples is None and line.startswith(b'(limit'):
        read_limit(line)
    if limit is None and line.startswith(b'(price'):
        read_price(line)


def read_lines(lines, unended, printed):
    """Reads lines in turn and prints for them, and looks at an unended last one; answers whether there was a limit."""
    samples = limit = due = None
    weights = ()
    for line in lines:
        if due and not opens_waiting(line):
            due = False
            printed.append(path_line(samples, limit, weights))
        if line == b'' and FAULT == 'empty-line':
            continue
        if is_note(line):
            refuse_if(FAULT == 'note-first' and samples is None)
            continue
        if FAULT == 'out-of-place':
            judge_out_of_place(line, samples, limit)
        again = FAULT == 'second-record' and limit is None and line.startswith(b'(record')
        if samples is None or again:
            try:
                samples = read_record(line)
            except Refused as refused:
                if FAULT != 'on-after-2' or refused.number == 11:
                    raise
                printed.append('(refused %d)' % refused.number)
        elif limit is None or (FAULT == 'second-limit' and line.startswith(b'(limit')):
            try:
                limit = read_limit(line)
            except Refused as refused:
                if FAULT == 'on-after-3' and refused.number == 3:
                    printed.append('(refused 3)')
                    continue
                raise
            refuse_if(FAULT == 'limit-short' and limit > len(samples), 3)
            due = True
            if FAULT == 'path-soon':
                due = False
                printed.append(path_line(samples, limit, weights))
        elif due and line.startswith(b'(weights'):
            refuse_if(weights and FAULT != 'weights-second')
            try:
                weights = read_weights(line, limit)
            except Refused as refused:
                if FAULT != 'on-after-14' or refused.number == 11:
                    raise
                printed.append('(refused %d)' % refused.number)
        elif FAULT == 'weights-late' and line.startswith(b'(weights'):
            read_weights(line, limit)
        else:
            printed.append(price_line(samples, limit, weights, line))
    if due and not (unended and (opens_waiting(unended) or FAULT == 'path-unended')):
        if unended or FAULT != 'path-end-lacks':
            printed.append(path_line(samples, limit, weights))
    return limit is not None


def print_report(data, printed):
    most = MOST_BYTES + (FAULT == 'long-taken') - (FAULT == 'long-refused')
    refuse_if(len(data) > most and FAULT != 'long-late')
    lines = data[:most].split(b'\n')
    unended = lines.pop()
    if FAULT in ('unended-taken', 'unended-late') or (FAULT == 'unended-note' and unended.startswith(b'(note')):
        lines += [unended] if unended else []
        unended = unended if FAULT == 'unended-late' else b''
    has_limit = read_lines(lines, unended, printed)
    refuse_if(unended or len(data) > most)
    refuse_if(not has_limit and FAULT != 'no-end')


def report(data: bytes) -> bytes:
    """The report on an input, as bytes."""
    printed = []
    try:
        print_report(data, printed)
    except Refused as refused:
        printed.append('(refused %d)' % refused.number)
    text = ''.join(line + '\n' for line in printed)
    return (text[:-1] if FAULT == 'last-line' else text).encode('latin-1')


def main():
    if sys.argv[1:] == ['--faults']:
        print('\n'.join(FAULTS))
        return
    plant(sys.argv[1] if len(sys.argv) > 1 else FAULT)
    sys.stdout.buffer.write(report(sys.stdin.buffer.read()))


if __name__ == '__main__':
    main()
