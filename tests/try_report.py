#!/usr/bin/env python3
"""Writes the texts that the program `try_report` goes over, and works its output out from the scope, with no look at the crates.

usage: try_report.py data crates/try_report/data     try_report.py answers > crates/try_report/stdout
       try_report.py errors     try_report.py counts

A text is read by try_reader.py. A set's records are added on the way through the revolving-door order, as numbers, and judged by the counts
of try_verdict.py; the function is told from the sum of the outer records. Texts of more than three million sets, which are the larger gadgets,
are judged by a directed search instead, which leaves out what no first breaking set can be (`Directed`).

`answers` takes some 40 seconds. It goes over the other texts again by the directed search, which it tries on the tables of try_verdict.py too;
and over small texts: the first breaking set and the operands that leak as try_verdict.py finds them, what a watcher of each set learns, also
where he knows all of one operand, and the function by trying all values as try_table.py does. It tells on standard error how many. `errors` runs
programs that err as those of the scope's "Errors that have been sold", each on a text of the data, and prints the lines in which the true report
and the wrong one differ. `counts` tells how many texts there are of each answer, and how many sets are looked at.
"""
import collections
import itertools
import random
import re
import sys
from math import comb
from pathlib import Path

import try_reader as readings
import try_table as tables
import try_verdict as verdicts
from try_reader import body, combed, head, padded
from try_verdict import NI, SNI

GADGETS = Path(__file__).resolve().parent.parent / "gadgets"
MASK_BITS = (2**64 - 1) << 64
SUMMED = 18  # the bytes of a record that are added
FUNCTIONS = {1: "product", 2: "sum", 3: "copy"}
MOST_WALKED = 3000000  # of more sets within the order, not all are looked at here

Text = collections.namedtuple("Text", "name bytes")


# Reports.


def walk(words, end, size, back=False):
    """The sets of so many out of the words before a place, in revolving-door order or back through it, each with its words' sum."""
    if size == 0:
        yield (), 0
        return
    places = range(size - 1, end)  # of the last wire: without wire n - 1 first, then with it, in the reverse order of the others
    for last in reversed(places) if back else places:
        for chosen, total in walk(words, last, size - 1, not back):
            yield (*chosen, last), total ^ words[last]


def place(chosen):
    """What sorts sets of one size, their wires rising, into revolving-door order: the highest wire, then the next below, turned round each time."""
    return [-wire if below % 2 else wire for below, wire in enumerate(reversed(chosen))]


def words_of(records):
    return [int.from_bytes(record[:SUMMED], "little") for record in records]


def function_name(records, shares):
    total = 0
    for word, record in zip(words_of(records), records):
        total ^= word * record[18]
    for function, name in FUNCTIONS.items():
        if [total] == words_of([tables.function_wire(function, shares).bytes()]):
            return name
    return "other"


def broken(name, chosen, leaking):
    """The line of a break, by the set's wires and the operands that leak."""
    return " ".join([name, "broken", *map(str, chosen), "by", "both" if len(leaking) == 2 else leaking[0]])


class Judge:
    """Reports as the scope has them. A program that errs does one of these things otherwise."""

    lister = readings.Wires

    def __init__(self):
        self.looked = 0  # so many sets were looked at

    def sizes(self, order):
        return range(1, order + 1)

    def breaks(self, records, chosen, total, notion):
        return bool(self.leaking(records, chosen, total, notion))

    def leaking(self, records, chosen, total, notion):
        """The operands by which a set breaks the notion."""
        counts = verdicts.dependence(total.to_bytes(SUMMED, "little"))
        allowed = verdicts.paying(records, chosen, notion)
        return [] if counts is None else [name for name, count in zip("ab", self.compared(*counts)) if count > allowed]

    def compared(self, of_a, of_b):
        return of_a, of_b

    def first_breaking(self, records, notion, order):
        words = words_of(records)
        for size in self.sizes(order):
            for chosen, total in walk(words, len(words), size):
                self.looked += 1
                if not total & MASK_BITS and self.breaks(records, chosen, total, notion):
                    return chosen, self.leaking(records, chosen, total, notion)
        return None

    def report(self, text):
        """The lines of a report, one after the other."""
        answer = readings.read(text, readings.MOST_TABLE, self.lister)
        if isinstance(answer, readings.Refusal):
            yield "refused %d at %d" % answer
            return
        records = verdicts.records_of(answer.table)
        yield "order %d shares %d masks %d wires %d" % answer[:4]
        yield "function " + function_name(records, answer.shares)
        for notion, name in (NI, "NI"), (SNI, "SNI"):
            found = self.first_breaking(records, notion, answer.order)
            yield name + " holds" if found is None else broken(name, *found)


class Directed(Judge):
    """The same reports, for texts of too many sets to look at each.

    A breaking set of least size can not be cut into two parts, neither empty, whose sums both have no mask: the sum of the whole depends on no
    more shares than the two sums together, and the wires that pay add up, so one part would break, and it is smaller. So the sum of each part
    has a mask left, and since the whole has none, some wire outside the part carries this mask. A set is put together by such wires alone."""

    def first_breaking(self, records, notion, order):
        words = words_of(records)
        for size in self.sizes(order):
            breaking = [found for found in self.without_masks(words, size) if self.breaks(records, *found, notion)]
            if breaking:
                chosen, total = min(breaking, key=lambda found: place(found[0]))
                return chosen, self.leaking(records, chosen, total, notion)
        return None

    def without_masks(self, words, size):
        """Sets of a size whose sum has no mask, each with its sum, once: all those that can not be cut."""
        carriers = {mask: [w for w, word in enumerate(words) if word & mask] for mask in (1 << k for k in range(64, 128))}
        rarest_first = sorted(carriers, key=lambda mask: len(carriers[mask]))
        alike = collections.defaultdict(list)
        for w, word in enumerate(words):
            alike[word & MASK_BITS].append(w)
        is_open, chosen, found = [True] * len(words), [], []

        def grow(total, missing):
            self.looked += 1
            masks = total & MASK_BITS
            if chosen and not masks:
                return  # a part without a mask
            if missing == 1:
                found.extend((tuple(sorted([*chosen, w])), total ^ words[w]) for w in alike.get(masks, ()) if is_open[w])
                return
            following = carriers[next(mask for mask in rarest_first if mask & masks)] if chosen else range(len(words))
            following = [w for w in following if is_open[w]]
            for w in following:
                is_open[w] = False  # below it and in what comes after: sets with this wire are found now
                chosen.append(w)
                grow(total ^ words[w], missing - 1)
                chosen.pop()
            for w in following:
                is_open[w] = True

        grow(0, size)
        return found


# Programs that err.


class AddsCounts(Judge):
    """Adds a's and b's counts."""

    def compared(self, of_a, of_b):
        return of_a + of_b, of_a + of_b


class CountsOuter(Judge):
    """Counts an outer wire under SNI."""

    def leaking(self, records, chosen, total, notion):
        return super().leaking(records, chosen, total, NI)


class OneSize(Judge):
    """Stops at size t only, and misses smaller sets."""

    def sizes(self, order):
        return [order]


class FirstSize(Judge):
    """Searches size 1, and waves larger sizes through."""

    def sizes(self, order):
        return [1]


class KeepsShares(Judge):
    """Takes a share as seen when a set's wires use it twice and the two uses cancel."""

    def leaking(self, records, chosen, total, notion):
        for word in words_of(records[w] for w in chosen):
            total |= word & ~MASK_BITS
        return super().leaking(records, chosen, total, notion)


class SkipsSums(Judge):
    """Forgets the sums on the way: watches symbols and outer wires only."""

    def breaks(self, records, chosen, total, notion):
        on_the_way = any(word.bit_count() != 1 and not records[w][18] for w, word in zip(chosen, words_of(records[w] for w in chosen)))
        return not on_the_way and super().breaks(records, chosen, total, notion)


class KeepsUses(Judge):
    """Takes a share as seen when a wire's own sum uses it twice and the two uses cancel."""

    class lister(readings.Wires):
        def group(self, items):
            total = self.item(items[0])
            for item in items[1:]:
                other = self.item(item)
                total = total ^ other | {term for term in total & other if term[0] != "r"}
                self.list.append(readings.Wire(total, 0, 0, items[0].start, item.end))
            return total


class OnePair(Judge):
    """Reads `s01 s10`, one after the other in a group, as one wire."""

    class lister(readings.Wires):
        def group(self, items):
            items = list(items)
            for n in range(len(items) - 1, 0, -1):
                one, two = (item.what if isinstance(item.what, tuple) else () for item in items[n - 1 : n + 1])
                if one[:1] == two[:1] == ("s",) and one[1:] == two[:0:-1] != two[1:]:
                    items[n - 1 : n + 1] = [readings.Item(items[n - 1].start, items[n].end, frozenset([one, two]))]
            return super().group(items)

        def item(self, item):
            if not isinstance(item.what, frozenset):
                return super().item(item)
            self.list.append(readings.Wire(set(item.what), 0, 0, item.start, item.end))
            return set(item.what)


# Each on a text whose report it gets wrong, and the line, counted from 0, that tells.
SOLD = {
    "sold-counts-added": (AddsCounts, 2, head(1, [0]) + body(b"s01 r0", b"r0 s10 b0")),
    "sold-counts-added-order-2": (AddsCounts, 2, head(2, [0]) + body(b"r0 a0 b0", b"r0 a1", b"b0")),
    "sold-outer-wire-counted": (CountsOuter, 3, head(1, [0]) + body(b"r0 a0 r0", b"r0 a1")),
    "sold-outer-wire-counted-order-2": (CountsOuter, 3, head(2, [0, 1]) + body(b"a0 r0", b"a1 r1", b"(a2 r0) r1")),
    "sold-one-size": (OneSize, 2, head(2, [0]) + body(b"a0 a1", b"r0", b"r0")),
    "sold-one-size-order-3": (OneSize, 2, head(3, [0, 1]) + body(b"(r0 b1) b2 b3", b"r0", b"r1", b"r1")),
    "sold-first-size": (FirstSize, 2, head(2, [0]) + body(b"r0 a0 a1 a2", b"r0", b"b0")),
    "sold-first-size-order-3": (FirstSize, 2, head(3, [0, 1]) + body(b"(r0 s00) s11 (r1 s22) s33", b"r0 a0", b"r1 b1", b"r1 b2")),
    "sold-share-kept": (KeepsShares, 2, head(2, [0, 1]) + body(b"(r0 a0) (r1 a1)", b"(r0 a1) (r1 a2)", b"a1")),
    "sold-use-kept": (KeepsUses, 2, head(1, [0]) + body(b"(r0 a1) a0 a1 r0", b"a1")),
    "sold-product-kept": (KeepsUses, 2, head(1, [0]) + body(b"s00 r0 s01 s11 s01 s10 s11 s10 r0", b"b1 b1")),
    "sold-one-pair": (OnePair, 2, head(1, [0]) + body(b"s00 r0", b"s11 r0 s01 s10")),
    "sold-one-pair-order-2": (OnePair, 2, head(2, [0, 1, 2]) + body(b"s00 r0 s01 s10 r1", b"s11 r1 s12 s21 r2", b"s22 r2 s02 s20 r0")),
    "sold-sums-forgotten": (SkipsSums, 2, head(1, [0]) + body(b"r0 (s10 s01) s00", b"s11 r0")),
    "sold-sums-forgotten-order-3": (SkipsSums, 2, head(3, [0]) + body(b"a0 a1 a2 a3 r0", b"r0", b"a1", b"a1")),
}  # fmt: skip


# The texts.


def isw(order):
    """The multiplication of Ishai, Sahai and Wagner; masks are numbered over the pairs of shares."""
    mask = {pair: k for k, pair in enumerate(itertools.combinations(range(order + 1), 2))}
    lines = []
    for i in range(order + 1):
        before = [b"((r%d s%d%d) s%d%d)" % (mask[j, i], j, i, i, j) for j in range(i)]
        after = [b"r%d" % mask[i, j] for j in range(i + 1, order + 1)]
        lines.append([b"s%d%d" % (i, i), *before, *after])
    return mask.values(), lines


def written(order, masks, lines):
    return head(order, masks) + body(*map(b" ".join, lines))


def gadget_files():
    """The texts of the folder `gadgets`, which say what the figures do."""
    figure_9 = readings.gadget(readings.FIGURE_9)
    expected = {"isw-%d" % order: written(order, *isw(order)) for order in range(1, 8)}
    expected |= {"order-2-example": readings.ORDER_TWO, "figure-8": readings.gadget(readings.FIGURE_8), "figure-9": figure_9}
    expected["figure-9-shares"] = re.sub(rb"s([0-7])\1", rb"a\1", figure_9)
    expected |= {"leak-1": readings.TEXT_B, "sum-1": readings.TEXT_C}  # the scope's
    assert {path.stem: path.read_bytes() for path in GADGETS.glob("*.txt")} == expected and expected["isw-1"] == readings.TEXT_A
    return expected.items()


def scope_texts():
    yield "text-b", readings.TEXT_B
    yield "text-c", readings.TEXT_C
    yield "empty", b""
    yield "empty-parentheses", head(1) + body(b"a0", b"()")
    yield "empty-parentheses-first-line", head(2, [0]) + body(b"()", b"a0", b"a1")
    yield "dom-indep", readings.DOM_INDEP
    yield "dom-indep-without-bars", readings.DOM_INDEP.replace(b"|", b"")
    yield "figure-7-first-lines", b"ORDER = 10\nMASKS = [r0, r1, r11, r12, r22, r23, r40]\ns00 r0 s01 s10 r1 s02 s20 r11 s03 s30 r12\n"
    yield "text-a-without-last-line-end", readings.TEXT_A[:-1]
    yield "text-a-spread-out", readings.TEXT_A.replace(b"s00 r0", b"\n   s00   r0   \n    ").replace(b"s11", b"\n  s11")


def long_line(first, last, count):
    """Order 1: a line of one symbol, then one of so many, the last of which is another."""
    return head(1) + body(first, b" ".join([first] * (count - 1) + [last]))


def limits():
    """Both sides of each limit."""
    text_a, two = readings.TEXT_A, head(1) + b"a0\nb0"
    deep = lambda n: head(1) + body(b"a1 " + b"(" * n + b"b0" + b")" * n, combed(min(n, 16), True))
    yield "bytes-4096", padded(text_a, 4096)
    yield "bytes-4096-to-the-last", padded(head(1) + b"a0", 4096, b"b0\nb1")
    yield "bytes-4096-line-ends", padded(two, 4096, filling=b"\n")
    yield "bytes-4097", padded(text_a, 4097)
    yield "bytes-4097-line-ends", padded(two, 4097, filling=b"\n")
    yield "bytes-4097-no-first-line", padded(b"x", 4097)
    yield "bytes-4098", padded(two, 4098, b"|")
    yield "bytes-70000", padded(text_a, 70000)
    yield "open-16", deep(16)
    yield "open-16-last-item", head(1) + body(combed(16, False), b"a1")
    yield "open-17", deep(17)
    yield "open-17-last-line", head(2, [5]) + body(b"a0", b"b1 r5", b"(" * 10 + b"a0 (b0 " + b"(" * 6 + b"a1" + b")" * 17)
    yield "wires-511", long_line(b"b0", b"b0", 510)
    yield "wires-512", long_line(b"a0", b"a0", 511)
    yield "wires-512-last-breaks", long_line(b"a0", b"a1", 510)
    yield "wires-513", long_line(b"a0", b"a0", 512)
    yield "wires-513-order-7", readings.of_wires(513)
    yield "wires-1338", long_line(b"a0", b"a0", 1337)
    yield "masks-64", readings.TEXT_A.replace(b"r0", b"r63")
    yield "masks-64-all", head(1, range(64)) + body(b" ".join(b"r%d" % k for k in range(64)), b"a0 r0 a1 r63")
    yield "masks-64-backwards", head(1, range(63, -1, -1)) + body(b"b0 r62", b"r62 b1 (a0 a1)")
    yield "masks-none", head(1) + body(b"s00 s01", b"s10 s11")


def refused():
    """Every number, more than once where the offset may differ."""
    two = body(b"a0", b"b0")
    lines = {"0": b"ORDER = 0", "8": b"ORDER = 8", "space": b"ORDER = 1 ", "carriage-return": b"ORDER = 1\r", "small": b"order = 1"}
    for name, line in lines.items():
        yield "refused-2-" + name, line + b"\nMASKS = []\n" + two
    yield "refused-2-line-skipped", b"\n" + readings.TEXT_A
    yield "refused-2-before-others", b"ORDER = 9\nMASKS = [r64]\n()|\n"
    yield "refused-3-no-line", b"ORDER = 1"
    yield "refused-3-no-line-after-end", b"ORDER = 7\n"
    yield "refused-3-line-skipped", b"ORDER = 1\n\nMASKS = []\n" + two
    names = {"twice": b"[r0, r1, r0]", "r64": b"[r64]", "r00": b"[r00]", "no-space": b"[r0,r1]", "open": b"[r0", "comma": b"[r0, ]"}
    for name, masks in {**names, "tab": b"[r0,\tr1]", "carriage-return": b"[]\r", "bar": b"[|]", "after": b"[] a0"}.items():
        yield "refused-3-" + name, b"ORDER = 1\nMASKS = " + masks + b"\n" + two
    symbols = {"share": b"a2", "product": b"s02", "r64": b"r64", "r00": b"r00", "r": b"r", "one-digit": b"s0", "plus": b"a0+b0"}
    symbols |= {"touching": b"s01s10", "tab": b"a0\tb0", "carriage-return": b"a0\r", "capital": b"A0", "zero-byte": b"\0"}
    for name, word in {**symbols, "byte-255": b"\xff"}.items():
        yield "refused-4-" + name, head(1, [0]) + body(b"b1 r0", b"(a1 " + word + b" )")
    yield "refused-4-order-7", head(7) + body(*[b"s%d%d" % (i, 7 - i) for i in range(7)], b"a7 b8")
    yield "refused-4-tabs-only", head(1) + body(b"a0", b"\t", b"b0")
    yield "refused-4-end", padded(head(1) + b"a0\nb0", 4096, b"x")
    yield "refused-5", head(1) + body(b"a0", b"b0 r0")
    yield "refused-5-r63", head(1, range(63)) + body(b"r63", b"b0")
    yield "refused-5-gap", head(2, [0, 2]) + body(b"r0 a0", b"r2 a1", b"(a2 r0) (r1 b0)")
    yield "refused-5-before-4", head(1) + body(b"r9 x", b"b0")
    lines = {"none-open": b"a1 b1)", "empty": b"a1 (( ) b1)", "line-end": b"a1 (b1 (a0)", "first": b")", "closed-twice": b"(a0 b1)) a1"}
    for name, line in lines.items():
        yield "refused-6-" + name, head(1) + body(b"b0", line)
        yield "refused-6-%s-first-line" % name, head(1) + body(b"  " + line, b"b0 |")
    yield "refused-6-text-end", head(1) + b"a0\nb0 (a1"
    yield "refused-6-text-end-4096", padded(head(1) + b"a0\nb0 (a1 ", 4096)
    yield "refused-7-alone", head(1) + body(b"|", b"b0")
    yield "refused-7-last", head(1, [0]) + body(b"a0 r0", b"(b0 r0) a1|")
    yield "refused-7-touching", head(1) + body(b"a0|b0", b"b0")
    yield "refused-8-at-once", head(1) + body(b"(" * 40, b"b0")
    yield "refused-8-after-16", head(1) + body(b"(" * 16 + b"a0" + b")" * 16, b"(" * 15 + b"b0 (b1 (a1")
    yield "refused-9-many", head(1) + two + b"a1\n"
    yield "refused-9-many-indented", head(1) + two + b"  \n\n    a1 b1\n"
    yield "refused-9-many-order-7", head(7) + b"a7\n" * 9
    yield "refused-9-before-7", head(1) + two + b" |\n"
    yield "refused-9-before-4", head(1) + two + b"\t\n"
    yield "refused-9-before-6", head(1) + two + b")"
    yield "refused-9-before-5", head(1) + two + b"r9\n"
    yield "refused-6-before-9-at-the-end", head(1) + b"(a0"
    yield "refused-9-before-10-at-the-end", head(2) + b"a0 " * 600
    yield "refused-6-before-10-at-the-end", head(1) + b"a0 " * 600 + b"\n(b0"
    yield "refused-9-few", head(1) + b"a0\n"
    yield "refused-9-few-no-lines", head(3, [0])
    yield "refused-9-few-order-7", head(7) + b"a7\n\n" * 7 + b"   "
    yield "refused-9-few-4096", padded(head(1) + b"a0", 4096)


def chain(order, letter):
    """A break that needs as many wires as the order is: masks cancel in all of them together only."""
    links = [b"r%d r%d %c%d" % (k - 1, k, letter, k + 1) for k in range(1, order - 1)]
    first, last = b"(r0 %c0) %c1" % (letter, letter), b"r%d %c%d" % (order - 2, letter, order)
    return head(order, range(order)) + body(first, *links, last, b"r%d" % (order - 1))


def variety():
    """Functions and breaks of each kind."""
    for order in range(1, 8):
        yield "copy-order-%d" % order, head(order) + body(*[b"a%d" % i for i in range(order + 1)])
    for order in range(2, 8):
        yield "chain-order-%d" % order, chain(order, b"ab"[order % 2])
    yield "sum-order-7", head(7) + body(*[b"a%d b%d" % (i, i) for i in range(8)])
    yield "masks-only-order-7", head(7, [0]) + body(*[b"r0"] * 8)
    yield "one-product-order-5", head(5) + body(b"s50", *[b"b1"] * 5)
    yield "refreshed-order-1", head(1, [0]) + body(b"a0 r0", b"a1 r0")
    yield "refreshed-order-2", head(2, [0, 1, 2]) + body(b"a0 r0 r1", b"a1 r0 r2", b"a2 r1 r2")
    for order in (3, 5, 6):
        ring = [b"a%d r%d r%d" % (i, i, (i + 1) % (order + 1)) for i in range(order + 1)]
        yield "refreshed-in-a-ring-order-%d" % order, head(order, range(order + 1)) + body(*ring)
    yield "sum-refreshed-order-1", head(1, [3]) + body(b"(a0 r3) b0", b"(r3 b1) a1")
    yield "product-unmasked-order-1", head(1) + body(b"s00 s01", b"s10 s11")
    yield "product-unmasked-order-2", head(2) + body(*[b"s%d0 s%d1 s%d2" % (i, i, i) for i in range(3)])
    yield "product-mask-in-the-wrong-place", head(1, [0]) + body(b"s00 s01 r0", b"s10 r0 s11")
    yield "copy-and-nothing", head(1) + body(b"a0 b0 b0", b"a1 (a1 a1)")
    yield "operand-b", head(2) + body(b"b0", b"b1", b"b2")
    yield "swapped-shares", head(2, [0]) + body(b"(a2 r0) b1", b"(b0 r0) a0", b"b2 a1")
    yield "mask-left-over", head(1, [0, 1]) + body(b"s00 r0 s01", b"(r1 s10) s11")
    yield "three-digits-order-1", head(1) + body(b" ".join([b"a0"] * 105), b"b0 b1 b0")
    yield "three-digits-order-2", head(2, [0]) + body(b" ".join([b"b0"] * 110), b"r0 a1 a2", b"(r0 a0) a0 a0")
    yield "three-digits-order-3", head(3, [0, 1]) + body(b" ".join([b"s11"] * 101), b"(r0 a0) a1", b"(r0 r1) a2", b"r1 a3")
    yield "three-digits-outer", head(2, [0]) + body(b" ".join([b"b1"] * 120), b"r0 r0", b"(r0 a0) r0")


def drawn():
    """ISW with its items in another order, or with a mask put for another: so many for each way in which the first breaks can lie."""
    draw, quota = random.Random(3), collections.Counter()
    for n in range(240):
        order = draw.choice([1, 2, 2, 3, 3])
        masks, lines = isw(order)
        lines = [[draw.choice([item, item, item.strip(b"()").replace(b")", b"")]) for item in line] for line in lines]
        for line in draw.choice([lines, lines, []]):
            draw.shuffle(line)
        text = written(order, masks, lines)
        if draw.random() < 0.4:
            one, two = (b"r%d" % draw.choice(list(masks)) for _ in range(2))
            text = head(order, masks) + text[len(head(order, masks)) :].replace(one, two, draw.choice([1, 2]))
        answers = tuple(re.sub("[0-9]+| by .*", "", line) if line[0] != "o" else line[:7] for line in Judge().report(text))
        quota[answers] += 1
        if quota[answers] <= 2:
            yield "drawn-%03d" % n, text


def texts():
    """All texts, in the order in which the program goes over them."""
    sold = ((name, text) for name, (_, _, text) in SOLD.items())
    for name, text in itertools.chain(gadget_files(), scope_texts(), limits(), refused(), sold, variety(), drawn()):
        yield Text(name + ".txt", text)


def sets_within(answer):
    return sum(comb(answer.wires, size) for size in range(1, answer.order + 1))


def reports(walking, directed):
    """Each text, with the lines that the program prints after its name."""
    for text in texts():
        answer = readings.read(text.bytes, readings.MOST_TABLE)
        many = not isinstance(answer, readings.Refusal) and sets_within(answer) > MOST_WALKED
        yield text, list((directed if many else walking).report(text.bytes))


# Each text of few sets a second time.


def wire_of(record):
    bits = lambda start, size: [k for k in range(8 * size) if verdicts.bit(record, start, k)]
    return verdicts.Wire([divmod(k, 8) for k in bits(0, 8)], bits(16, 1), bits(17, 1), bits(8, 8), record[18])


class Again:
    """The same answers by the other ways of try_verdict.py and try_table.py, with counts of how many texts each way went over."""

    def __init__(self):
        self.watched, self.counts = verdicts.Compared(), collections.Counter()

    def text(self, text, told):
        answer = readings.read(text.bytes, readings.MOST_TABLE)
        if isinstance(answer, readings.Refusal):
            return
        records, wires = verdicts.records_of(answer.table), [wire_of(r) for r in verdicts.records_of(answer.table)]
        if sets_within(answer) <= MOST_WALKED:
            self.counts["reports by walking over all sets and by the directed search"] += 1
            assert told == list(Directed().report(text.bytes))
        if 2 * answer.shares + len({k for w in wires for k in w.masks}) <= 16:
            self.counts["functions by trying"] += 1
            assert told[1] == "function " + next((n for f, n in FUNCTIONS.items() if tables.computes(wires, answer.shares, f)), "other")
        if sets_within(answer) <= 20000:
            self.counts["reports by listing all sets"] += 1
            for notion, name, line in (NI, "NI", told[2]), (SNI, "SNI", told[3]):
                found = verdicts.first_breaking(records, notion, answer.order)
                assert line == (name + " holds" if found is None else broken(name, found, verdicts.leaking_by(records, found, notion)))
        if answer.shares <= 3 and answer.wires <= 14 and answer.masks <= 4:
            self.counts["tables by watching"] += 1
            self.watched.table(answer.shares, answer.masks, wires, records)

    def tables(self):
        """The directed search on the tables of try_verdict.py, which break by sets of every size."""
        for shares, _, _, table in verdicts.cases():
            records = verdicts.records_of(table)
            for notion, order in itertools.product((NI, SNI), range(1, shares)):
                self.counts["verdicts on other tables by listing all sets and by the directed search"] += 1
                first = verdicts.first_breaking(records, notion, order)
                found = first and (first, verdicts.leaking_by(records, first, notion))
                assert Directed().first_breaking(records, notion, order) == found

    def told(self):
        for way, count in self.counts.items():
            print(count, way, "agree", file=sys.stderr)


def examples():
    """What the scope itself says of reports."""
    for n, k in itertools.product(range(8), range(5)):
        assert [chosen for chosen, _ in walk([0] * n, n, k)] == verdicts.revolving(n, k)
        assert sorted(itertools.combinations(range(n), k), key=place) == verdicts.revolving(n, k)
    report = lambda text: list(Judge().report(text))
    assert report(readings.TEXT_A) == ["order 1 shares 2 masks 1 wires 9", "function product", "NI holds", "SNI holds"]
    assert report(readings.TEXT_B)[1:] == ["function product", "NI broken 6 by both", "SNI broken 6 by both"]
    assert report(readings.TEXT_C)[1:] == ["function sum", "NI holds", "SNI broken 2 by both"]
    assert report(b"") == ["refused 2 at 0"] and report(head(1) + b"()\na0\n") == ["refused 6 at %d" % (len(head(1)) + 1)]


def write_data(folder):
    every = list(texts())
    assert len({text.name for text in every}) == len(every)
    for text in every:
        assert re.fullmatch("[a-z0-9-]+[.]txt", text.name) and len(text.name) <= 60
        (folder / text.name).write_bytes(text.bytes)
    (folder / "index").write_text("".join(text.name + "\n" for text in every))


def print_answers():
    again = Again()
    for text, told in reports(Judge(), Directed()):
        again.text(text, told)
        print(text.name, *told, sep="\n")
    again.tables()
    again.told()


def print_errors():
    for name, (wrong, line, text) in SOLD.items():
        true, false = (list(judge.report(text)) for judge in (Judge(), wrong()))
        assert true[line] != false[line]
        print("%s: %s It says `%s` for `%s`." % (name, wrong.__doc__, false[line], true[line]))


def without_numbers(line):
    """A refusal without its offset, a break with its size for its wires."""
    words = line.split(" at ")[0].split()
    return " ".join([*words[:2], "at size %d" % (len(words) - 4), *words[-2:]] if words[1] == "broken" else words)


def print_counts():
    """How many texts there are of each answer, and how many sets are looked at."""
    walking, directed, kinds = Judge(), Directed(), collections.Counter()
    every = list(reports(walking, directed))
    for _, told in every:
        kinds.update(without_numbers(line) for line in told if not line.startswith("order"))
    for kind in sorted(kinds):
        print(kinds[kind], kind)
    print(len(every), "texts,", walking.looked, "sets looked at,", directed.looked, "parts of sets in the directed search")


def main():
    examples()
    if len(sys.argv) == 3 and sys.argv[1] == "data":
        write_data(Path(sys.argv[2]))
    elif sys.argv[1:] == ["answers"]:
        print_answers()
    elif sys.argv[1:] == ["errors"]:
        print_errors()
    elif sys.argv[1:] == ["counts"]:
        print_counts()
    else:
        sys.exit(__doc__)


if __name__ == "__main__":
    main()
