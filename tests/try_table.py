#!/usr/bin/env python3
"""Writes the input of the program `try_table`, and works its output out from the scope, with no look at the crates.

usage: try_table.py cases > crates/try_table/stdin        try_table.py answers > crates/try_table/stdout

The function check is made by trying: every share and every mask is a bit that runs through all values, a wire's value is the column of its
values, and the outer wires' columns are added up and compared with the function's. Breaking sets are found in the same way: a sum depends on
a share, or keeps a mask, when a change of that bit alone changes its value somewhere. Nothing is compared record by record.
"""
import itertools
import random
import sys

RECORD = 24


class Wire:
    """What a record names: products as pairs (i, j), shares of a, shares of b, masks; outer or not."""

    def __init__(self, products=(), a=(), b=(), masks=(), outer=0):
        self.products, self.a, self.b, self.masks, self.outer = set(products), set(a), set(b), set(masks), outer

    def bytes(self):
        number = lambda bits, size: sum(1 << k for k in bits).to_bytes(size, "little")
        rest = bytes([self.outer, 0, 7, 1, 9, 0])  # bytes 19 to 23 are not judged
        return number((8 * i + j for i, j in self.products), 8) + number(self.masks, 8) + number(self.a, 1) + number(self.b, 1) + rest


def columns(count):
    """One column of 2 ** count values for each of so many bits that run through all their values."""
    size = 1 << count
    for k in range(count):
        block = ((1 << (1 << k)) - 1) << (1 << k)  # zeros, then ones, 2 ** k of each
        column, width = block, 2 << k
        while width < size:
            column |= column << width
            width *= 2
        yield column


def total(values):
    result = 0
    for value in values:
        result ^= value
    return result


class Columns:
    """The columns of a table's wires over all values of its shares and masks."""

    def __init__(self, wires, shares):
        masks = sorted({k for w in wires for k in w.masks})  # those that occur nowhere change no value
        self.shares, self.masks = shares, len(masks)
        bits = list(columns(2 * shares + len(masks)))
        self.size = 1 << len(bits)
        a, b, r = bits[:shares], bits[shares : 2 * shares], dict(zip(masks, bits[2 * shares :]))
        self.a, self.b = a, b
        self.wires = [
            total(a[i] & b[j] for i, j in w.products) ^ total(a[i] for i in w.a) ^ total(b[j] for j in w.b) ^ total(r[k] for k in w.masks)
            for w in wires
        ]

    def changes(self, column, k):
        """Whether the column has two places that differ in bit k alone and have different values."""
        step = 1 << k
        low = next(itertools.islice(columns(self.size.bit_length() - 1), k, None)) >> step  # the places with bit k at 0
        return (column ^ column >> step) & low != 0


def computes(wires, shares, function):
    table = Columns(wires, shares)
    a, b = total(table.a), total(table.b)
    return total(c for c, w in zip(table.wires, wires) if w.outer) == {1: a & b, 2: a ^ b, 3: a}[function]


def breaking(wires, shares):
    """How many sets of up to three wires break NI, and how many SNI: by which shares and masks change the sum's value."""
    table = Columns(wires, shares)
    found = [0, 0]
    for size in (1, 2, 3):
        for chosen in itertools.combinations(range(len(wires)), size):
            column = total(table.wires[w] for w in chosen)
            if any(table.changes(column, 2 * shares + k) for k in range(table.masks)):
                continue
            counts = [sum(table.changes(column, start + i) for i in range(shares)) for start in (0, shares)]
            inner = sum(not wires[w].outer for w in chosen)
            found[0] += max(counts) > size
            found[1] += max(counts) > inner
    return found


def answers(case):
    """The answers of the table's tests and of the function check."""
    shares, masks, function, wires, tail = case
    length = RECORD * len(wires) + tail
    refused = None
    if not 2 <= shares <= 8 or masks > 64:
        refused = 11
    elif length % RECORD or length > 12288:
        refused = 12
    elif any(max((n for p in w.products for n in p), default=0) >= shares or max(w.a | w.b, default=0) >= shares
             or max(w.masks, default=-1) >= masks or w.outer > 1 for w in wires):
        refused = 13
    if refused:
        return ["refused %d" % refused] * 2
    if not 1 <= function <= 3:
        return ["accepted", "refused 20"]
    return ["accepted", "yes" if computes(wires, shares, function) else "no"]


def symbol(text):
    if text[0] == "s":
        return Wire(products=[(int(text[1]), int(text[2]))])
    return Wire(**{{"a": "a", "b": "b", "r": "masks"}[text[0]]: [int(text[1:])]})


def added(*wires, outer=0):
    result = Wire(outer=outer)
    for w in wires:
        result.products ^= w.products
        result.a ^= w.a
        result.b ^= w.b
        result.masks ^= w.masks
    return result


def scope_texts():
    s00, s01, s10, s11, r0 = map(symbol, "s00 s01 s10 s11 r0".split())
    a0, a1, b0, b1 = map(symbol, "a0 a1 b0 b1".split())
    first = [s00, r0, added(s00, r0, outer=1)]
    text_a = first + [s11, s01, added(r0, s01), s10, added(r0, s01, s10), added(s11, r0, s01, s10, outer=1)]
    text_b = first + [s11, s01, s10, added(s01, s10), added(s11, s01, s10), added(s11, s01, s10, r0, outer=1)]
    text_c = [a0, b0, added(a0, b0, outer=1), a1, b1, added(a1, b1, outer=1)]
    return [(2, 1, text_a), (2, 1, text_b), (2, 0, text_c)]


def limits():
    """Both sides of each limit, and the order of the refusals."""
    one = [symbol("s00")]
    for shares in (0, 1, 2, 8, 9, 255):
        yield shares, 64, 1, one, 0
    for masks in (0, 64, 65, 255):
        yield 8, masks, 1, [Wire(masks=[masks - 1])] if 0 < masks <= 64 else one, 0
    for tail in (1, 8, 12, 23, 25, 36):
        yield 2, 0, 1, one, tail
    yield 2, 0, 1, [], 0
    yield 2, 0, 1, [Wire()] * 512, 0
    yield 2, 0, 1, [Wire()] * 511 + [Wire(outer=2)], 0
    last = function_wire(1, 2)
    last.outer = 1
    yield 2, 0, 1, [Wire()] * 511 + [last], 0
    yield 2, 0, 1, [Wire()] * 513, 0
    yield 2, 0, 1, [Wire()] * 514, 0
    yield 9, 65, 0, [Wire(outer=2)], 1
    yield 2, 0, 0, [Wire(outer=2)], 1
    yield 2, 0, 0, [Wire(outer=2)], 0
    for function in (0, 1, 3, 4, 255):
        yield 2, 0, function, one, 0
    for shares in range(2, 9):
        for n in (shares - 1, shares):
            if n < 8:
                for w in (Wire(products=[(n, 0)]), Wire(products=[(0, n)]), Wire(a=[n]), Wire(b=[n]), Wire(products=[(n, n)], outer=1)):
                    yield shares, 0, 3, one + [w], 0
    for masks in (1, 33, 63, 64):
        for k in (masks - 1, masks):
            if k < 64:
                yield 2, masks, 2, one + [Wire(masks=[k])], 0
    for outer in (0, 1, 2, 255):
        yield 2, 0, 1, [Wire(outer=outer)], 0


def function_wire(function, shares):
    every = range(shares)
    return {1: Wire(products=[(i, j) for i in every for j in every]), 2: Wire(a=every, b=every), 3: Wire(a=every)}[function]


def random_cases():
    """Tables whose last outer wire makes up for the others, and the same with one thing changed."""
    draw = random.Random(2)
    for n in range(120):
        shares, masks = 2 + n % 7, draw.randrange(4)
        some = lambda count: [k for k in range(count) if draw.random() < 0.4]
        wires = [Wire([(i, j) for i in some(shares) for j in some(shares)], some(shares), some(shares), some(masks), draw.randrange(2)) for _ in range(draw.randrange(1, 6))]
        function = 1 + n % 3
        last = added(function_wire(function, shares), *(w for w in wires if w.outer), outer=1)
        if n % 2:
            kind = draw.randrange(4)
            pick = draw.randrange(shares)
            last = added(last, [Wire(products=[(pick, draw.randrange(shares))]), Wire(a=[pick]), Wire(b=[pick]), Wire(masks=[0]) if masks else Wire(a=[pick])][kind], outer=1)
        wires.insert(draw.randrange(len(wires) + 1), last)
        yield shares, masks, function, wires, 0


def cases():
    for shares, masks, wires in scope_texts():
        for function in (1, 2, 3):
            yield shares, masks, function, wires, 0
    yield from limits()
    yield from random_cases()


def main():
    if sys.argv[1:] == ["cases"]:
        for shares, masks, function, wires, tail in cases():
            table = b"".join(w.bytes() for w in wires) + bytes(tail)
            sys.stdout.buffer.write(bytes([shares, masks, function]) + len(table).to_bytes(2, "little") + table)
    elif sys.argv[1:] == ["answers"]:
        for case in cases():
            shares, masks, function, wires, tail = case
            told = answers(case)
            few = tail == 0 and len(wires) <= 12 and told[0] == "accepted"
            print(shares, masks, RECORD * len(wires) + tail, function, *told, *(["breaking", *breaking(wires, shares)] if few else []))
    else:
        sys.exit(__doc__)


if __name__ == "__main__":
    main()
