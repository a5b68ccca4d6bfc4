#!/usr/bin/env python3
"""Writes the input of the program `try_verdict`, and works its output out from the scope, with no look at the crates.

usage: try_verdict.py cases > crates/try_verdict/stdin        try_verdict.py answers > crates/try_verdict/stdout

Every table of the input is judged twice. By its records: the records of a set are added, bit by bit, and the sum's masks and shares are counted
("Breaking sets"). By watching: for a set, shares of a and of b are chosen in every way that the notion allows, all inputs are grouped by these
shares, and within a group each pattern has to come from equally many mask settings ("What a watcher sees", demand 3); no records are added in it.
For every set within the highest order: one that breaks has no choice, and one of which no part breaks has one. At every order: each set has a
choice exactly when none breaks, and the set shown has none. What was compared is told on standard error. The tables of the limits and that of
512 wires are judged by their records alone.
"""
import itertools
import random
import sys
from collections import Counter
from functools import lru_cache
from math import comb

RECORD, NI, SNI, ROOM, LARGEST = 24, 1, 2, 9, 2**64 - 1


class Wire:
    """What a record names: products as pairs (i, j), shares of a, shares of b, masks; outer or not."""

    def __init__(self, products=(), a=(), b=(), masks=(), outer=0):
        self.products, self.a, self.b, self.masks, self.outer = set(products), set(a), set(b), set(masks), outer

    def bytes(self, unjudged=bytes(5)):
        number = lambda bits, size: sum(1 << k for k in bits).to_bytes(size, "little")
        named = number((8 * i + j for i, j in self.products), 8) + number(self.masks, 8) + number(self.a, 1) + number(self.b, 1)
        return named + bytes([self.outer]) + unjudged

    def value(self, a, b, r):
        singles = sum(a[i] for i in self.a) + sum(b[j] for j in self.b) + sum(r[k] for k in self.masks)
        return (sum(a[i] * b[j] for i, j in self.products) + singles) % 2


def symbol(text):
    if text[0] == "s":
        return Wire(products=[(int(text[1]), int(text[2]))])
    return Wire(**{{"a": "a", "b": "b", "r": "masks"}[text[0]]: [int(text[1:])]})


def wire(text):
    """The sum of the symbols in a text, two equal ones taken away; outer where the text ends in a bang."""
    result = Wire(outer=int(text.endswith("!")))
    for part in map(symbol, text.strip("!").split()):
        result.products ^= part.products
        result.a ^= part.a
        result.b ^= part.b
        result.masks ^= part.masks
    return result


def wires(text):
    return [wire(part) for part in text.split(",")]


# The order of sets.


def revolving(n, k):
    """The sets of k out of n wires in revolving-door order."""
    if k == 0:
        return [()]
    if n == 0:
        return []
    return revolving(n - 1, k) + [s + (n - 1,) for s in reversed(revolving(n - 1, k - 1))]


def unrank(n, k, r):
    """The set at a rank of an order too long to list, half by half as the scope says it."""
    if k == 0:
        return ()
    without, with_it = comb(n - 1, k), comb(n - 1, k - 1)
    if r < without:
        return unrank(n - 1, k, r)
    return unrank(n - 1, k - 1, with_it - 1 - (r - without)) + (n - 1,)


@lru_cache(None)
def listed(n, k):
    return revolving(n, k)


def stretch(n, k, start, end):
    """The sets at the ranks from one bound up to, without, the other."""
    if comb(n, k) > 1000000:
        return [unrank(n, k, r) for r in range(start, end)]
    return listed(n, k)[start:end]


# By records.


def bit(number, start, k):
    return number[start + k // 8] >> k % 8 & 1


@lru_cache(None)
def dependence(total):
    """On how many shares of a and of b a sum of records depends, or no counts where it has a mask."""
    if any(total[8:16]):
        return None
    of_a = sum(any(bit(total, 0, 8 * i + j) for j in range(8)) or bit(total, 16, i) for i in range(8))
    of_b = sum(any(bit(total, 0, 8 * i + j) for i in range(8)) or bit(total, 17, j) for j in range(8))
    return of_a, of_b


def added(records, chosen):
    total = bytes(18)
    for w in chosen:
        total = bytes(x ^ y for x, y in zip(total, records[w]))
    return total


def paying(records, chosen, notion):
    """How many wires of a set count: all of them for NI, the inner ones for SNI."""
    return sum(notion == NI or records[w][18] == 0 for w in chosen)


def breaks(records, chosen, notion):
    counts = dependence(added(records, chosen))
    return counts is not None and max(counts) > paying(records, chosen, notion)


def leaking_by(records, chosen, notion):
    """The operands whose count exceeds what the notion allows a set without a mask."""
    allowed = paying(records, chosen, notion)
    return [name for name, count in zip("ab", dependence(added(records, chosen))) if count > allowed]


def records_of(table):
    return [table[k : k + RECORD] for k in range(0, len(table), RECORD)]


def first_breaking(records, notion, order):
    for size in range(1, order + 1):
        for chosen in stretch(len(records), size, 0, comb(len(records), size)):
            if breaks(records, chosen, notion):
                return chosen
    return None


# By watching.


@lru_cache(None)
def pattern_counts(columns, settings):
    """How many of so many mask settings each pattern comes from; a column has a wire's value at every setting."""
    return frozenset(Counter(tuple(column[m] for column in columns) for m in range(settings)).items())


class Watcher:
    """What a watcher of some wires can learn: for each input, each wire's values over all mask settings. With more than four shares, those shares and
    masks that no wire names are left out: they change no value, and a mask more brings each pattern twice as often under every input."""

    def __init__(self, wires, shares, masks):
        a, b, masks = range(shares), range(shares), range(masks)
        if shares > 4:
            a, b, masks = (sorted(set().union(*names)) for names in zip(*map(self.names, wires)))
        self.of_a, self.of_b, self.settings = len(a), len(b), 1 << len(masks)
        inputs = [(x[: len(a)], x[len(a) :]) for x in itertools.product((0, 1), repeat=len(a) + len(b))]
        settings = [dict(zip(masks, r)) for r in itertools.product((0, 1), repeat=len(masks))]
        self.bits = [sum(v << k for k, v in enumerate(x + y)) for x, y in inputs]
        self.columns = [[tuple(w.value(dict(zip(a, x)), dict(zip(b, y)), r) for r in settings) for w in wires] for x, y in inputs]
        self.tried = 0

    @staticmethod
    def names(wire):
        return wire.a | {i for i, _ in wire.products}, wire.b | {j for _, j in wire.products}, wire.masks

    def same(self, seen, mask):
        """Whether inputs that agree on the shares in the mask are seen alike."""
        groups = {}
        return all(groups.setdefault(x & mask, what) == what for x, what in zip(self.bits, seen))

    def has_choice(self, chosen, most_of_a, most_of_b):
        """Whether shares of a and of b can be chosen for a set, so many at most. More shares never harm, so the largest choices are tried."""
        seen = [pattern_counts(tuple(row[w] for w in chosen), self.settings) for row in self.columns]
        some = lambda count, most: [sum(1 << k for k in c) for c in itertools.combinations(range(count), min(most, count))]
        for on_a, on_b in itertools.product(some(self.of_a, most_of_a), some(self.of_b, most_of_b)):
            self.tried += 1
            if self.same(seen, on_a | on_b << self.of_a):
                return True
        return False

    def leaking(self, chosen, allowed):
        """The operands for which no choice will do, though every share of the other may be chosen: those by which a set breaks, where no part does."""
        most = {"a": (allowed, self.of_b), "b": (self.of_a, allowed)}
        return [name for name in "ab" if not self.has_choice(chosen, *most[name])]


class Compared:
    """Both ways over every set of every table, with counts of what was met."""

    def __init__(self):
        self.tables = self.sets = self.tried = 0
        self.met = Counter()

    def table(self, shares, masks, wires, records):
        watcher = Watcher(wires, shares, masks)
        self.tables += 1
        for notion in (NI, SNI):
            broken, choice = set(), {}
            for chosen in itertools.chain(*(itertools.combinations(range(len(wires)), size) for size in range(shares))):
                allowed = len(chosen) if notion == NI else sum(not wires[w].outer for w in chosen)
                choice[chosen] = watcher.has_choice(chosen, allowed, allowed)
                if breaks(records, chosen, notion):
                    broken.add(chosen)
                    assert not choice[chosen]
                elif not any(part in broken for size in range(len(chosen)) for part in itertools.combinations(chosen, size)):
                    assert choice[chosen]
            self.sets += len(choice)
            for order in range(1, shares):
                self.order(records, shares, notion, order, broken, choice, watcher)
        self.tried += watcher.tried

    def order(self, records, shares, notion, order, broken, choice, watcher):
        within = {chosen for chosen in choice if len(chosen) <= order}
        holds = all(choice[chosen] for chosen in within)
        first = first_breaking(records, notion, order)
        assert holds == (not broken & within) == (first is None)
        self.met["shares", shares, "notion", notion, "order", order, "holds" if holds else "broken"] += 1
        if holds:
            return
        assert not choice[first]
        self.met["size", len(first)] += 1
        leaking = leaking_by(records, first, notion)
        assert leaking == watcher.leaking(first, paying(records, first, notion))
        self.met["through", "".join(leaking)] += 1
        same_size = sorted(chosen for chosen in broken if len(chosen) == len(first))
        self.met["first set is the first by wire numbers too", first == same_size[0]] += 1
        self.met["first set has the lowest wire of all", min(first) == min(map(min, same_size))] += 1
        self.met["first set all outer", all(records[w][18] for w in first)] += 1

    def told(self):
        for what in sorted(self.met, key=str):
            print(*what, self.met[what], file=sys.stderr)
        print(self.tables, "tables,", self.sets, "sets under a notion,", self.tried, "choices tried; all agree", file=sys.stderr)
        for shares in (2, 3, 4):
            for notion, order in itertools.product((NI, SNI), range(1, shares)):
                assert all(self.met["shares", shares, "notion", notion, "order", order, end] >= 3 for end in ("holds", "broken"))
        assert all(self.met["size", size] for size in range(1, 8)) and all(self.met["through", way] >= 3 for way in ("a", "b", "ab"))
        assert self.met["first set is the first by wire numbers too", False] and self.met["first set has the lowest wire of all", False]


# The answers, each a line.


def tested(table, shares, masks):
    """The number by which the tests of a table turn it down, or None."""
    if not 2 <= shares <= 8 or masks > 64:
        return 11
    if len(table) % RECORD or len(table) > 12288:
        return 12
    for r in records_of(table):
        if any(bit(r, 0, 8 * i + j) for i in range(8) for j in range(8) if max(i, j) >= shares) or any(bit(r, 8, k) for k in range(masks, 64)):
            return 13
        if any(bit(r, start, i) for start in (16, 17) for i in range(shares, 8)) or r[18] > 1:
            return 13
    return None


def line(head, answer, chosen=()):
    print(*head, end=": ")
    print(*answer, "|", *chosen, "-" * (ROOM - len(chosen)))


def title(table, shares, masks):
    print("table", shares, masks, len(table))


def verdict(table, shares, masks, notion, order, room=ROOM):
    """Prints the answer of the verdict, and again as that of the directed verdict, which is the same."""
    refused = tested(table, shares, masks)
    if not refused and notion not in (NI, SNI):
        refused = 14
    if not refused and not 1 <= order <= shares - 1:
        refused = 15
    if not refused and room < order:
        refused = 16
    first = None if refused else first_breaking(records_of(table), notion, order)
    answer = ("refused", refused) if refused else ("holds",) if first is None else ("broken", len(first))
    for name in "verdict", "directed":
        line((name, notion, order, room), answer, first or ())


def range_check(table, shares, masks, notion, size, start, end, room=ROOM):
    """Prints the answer; gives the rank that was found, or the end of the range."""
    records = records_of(table)
    refused = tested(table, shares, masks)
    if not refused and notion not in (NI, SNI):
        refused = 14
    if not refused and size > 7:
        refused = 17
    if not refused and room < size:
        refused = 16
    if not refused and not 0 <= start <= end <= comb(len(records), size):
        refused = 18
    head = "range", notion, size, start, end, room
    if refused:
        line(head, ("refused", refused))
        return end
    for rank, chosen in enumerate(stretch(len(records), size, start, end), start):
        if breaks(records, chosen, notion):
            line(head, ("found", size, rank), chosen)
            return rank
    line(head, ("clean",))
    return end


def case_lines(table, shares, masks):
    """Verdicts at every order; of each size up to 3 all sets, the same in three jobs, those past the first find, and none just before it."""
    title(table, shares, masks)
    for notion, order in itertools.product((NI, SNI), range(1, shares)):
        verdict(table, shares, masks, notion, order)
    for notion, size in itertools.product((NI, SNI), range(4)):
        count = comb(len(table) // RECORD, size)
        found = range_check(table, shares, masks, notion, size, 0, count)
        for job in range(3):
            range_check(table, shares, masks, notion, size, job * count // 3, (job + 1) * count // 3)
        if found < count:
            range_check(table, shares, masks, notion, size, found + 1, count)
        range_check(table, shares, masks, notion, size, found, found)


# Both sides of every limit.

SMALL = b"".join(w.bytes() for w in wires("a0!,r0,r0 a0 a1 a2"))


def altered(table, *changes):
    table = bytearray(table)
    for place, byte in changes:
        table[place] = byte
    return bytes(table)


def table_limits():
    yield from ((bytes(24), shares, 64) for shares in (0, 1, 2, 8, 9, LARGEST))
    yield from ((SMALL, 3, masks) for masks in (0, 1, 64, 65, LARGEST))
    yield from ((bytes(length), 8, 64) for length in (0, 23, 24, 25, 12287, 12288, 12289, 12312))
    yield SMALL, 2, 1
    yield from ((altered(SMALL, (18, byte)), 3, 1) for byte in (2, 255, 0))
    yield from ((altered(SMALL, (18, 0), (39, 128)), 3, masks) for masks in (63, 64))


def limit_lines():
    for table, shares, masks in table_limits():
        title(table, shares, masks)
        verdict(table, shares, masks, NI, 1)
        range_check(table, shares, masks, NI, 1, 0, 1)
    small = SMALL, 3, 1
    title(*small)
    for notion in (0, 1, 2, 3, LARGEST):
        verdict(*small, notion, 2)
        range_check(*small, notion, 2, 0, 3)
    title(*small)
    for notion, order in itertools.product((NI, SNI), (0, 1, 2, 3, LARGEST)):
        verdict(*small, notion, order)
    title(SMALL, 8, 64)
    for order in (7, 8):
        verdict(SMALL, 8, 64, NI, order)
    title(*small)
    for size, end in (3, 1), (4, 0), (7, 0), (8, 0), (LARGEST, 0):
        range_check(*small, NI, size, 0, end)
    title(*small)
    for notion, order, room in (NI, 1, 0), (NI, 1, 1), (NI, 2, 1), (NI, 2, 2), (SNI, 2, 1), (SNI, 2, 2):
        verdict(*small, notion, order, room)
    for size, end, room in (0, 1, 0), (1, 3, 0), (1, 3, 1), (2, 3, 1), (2, 3, 2), (7, 0, 6), (7, 0, 7):
        range_check(*small, SNI, size, 0, end, room)
    bound_lines(small)


def bound_lines(small):
    title(*small)
    for start, end in (0, 3), (0, 4), (2, 1), (1, 2), (3, 3), (4, 4), (4, 3), (0, LARGEST), (LARGEST, 0), (LARGEST, LARGEST), (0, 2**32):
        range_check(*small, NI, 2, start, end)
    for size, start, end in (0, 0, 1), (0, 1, 1), (0, 0, 2), (4, 0, 1):
        range_check(*small, NI, size, start, end)


def order_lines():
    """Several things wrong at once, then one after the other put right."""
    small = SMALL, 3, 1
    ragged, beyond = bytes([2] * 71), bytes([2] * 72)
    tables = (ragged, 9, 1), (ragged, 3, 65), (ragged, 3, 1), (beyond, 3, 1), small
    for table, notion, order in [(table, 3, LARGEST) for table in tables] + [(small, NI, LARGEST), (small, NI, 2)]:
        title(*table)
        verdict(*table, notion, order, 0)
    verdict(*small, NI, 2, 2)
    for table, notion, size in [(table, 3, 8) for table in tables] + [(small, NI, 8), (small, NI, 2)]:
        title(*table)
        range_check(*table, notion, size, 5, 4, 0)
    range_check(*small, NI, 2, 5, 4, 2)
    range_check(*small, NI, 2, 0, 3, 2)


def large_lines():
    """512 wires on eight shares, all but three of them 0; then four."""
    named = {5: "r0", 511: "r0 a0 a1 a2 a3 a4 a5 a6 a7", 300: "a6!"}
    for more in {}, {400: "b5 b6"}:
        table = b"".join(wire({**named, **more}.get(n, "")).bytes() for n in range(512)), 8, 1
        title(*table)
        verdict(*table, NI, 1)
        verdict(*table, NI, 2)
        verdict(*table, SNI, 1)
        range_check(*table, NI, 1, 0, 512)
        count = comb(512, 7)
        for start, end in (count - 60, count - 53), (count - 60, count), (count, count), (count, count + 1):
            range_check(*table, NI, 7, start, end)


# The tables.


def scope_texts():
    yield 2, 1, wires("s00,r0,s00 r0!,s11,s01,r0 s01,s10,r0 s01 s10,s11 r0 s01 s10!")
    yield 2, 1, wires("s00,r0,s00 r0!,s11,s01,s10,s01 s10,s11 s01 s10,s11 s01 s10 r0!")
    yield 2, 0, wires("a0,b0,a0 b0!,a1,b1,a1 b1!")


def hand_made():
    """Each kind of break, and near misses of it."""
    yield 2, 0, []
    yield 4, 3, []
    for text in "a0", "a0!", "", "!", "a0 a1", "b0 b1", "a0 b1", "s01 s10", "s00 s01", "s00 s10", "s01 a0 b1", "a0 a1!":
        yield 2, 0, wires(text)
    for text in "a0 a2", "b1 b2!", "a0 s11 b2", "s01 s02 s00":
        yield 3, 0, wires("a0,b0," + text)
    for text in "a3 a2", "s03 s13 s23", "s30 s31 s32!", "a0 b3 s03":
        yield 4, 0, wires("a3,b3," + text)
    yield 2, 3, wires("a0 a1 r2,r1,r0")  # the mask that would uncover the sum is another
    yield 2, 1, wires("a0,r0,a0 r0!,a1,a1 r0!")  # fresh shares at order 1
    yield 3, 2, wires("a0,r0,a0 r0,r1,a0 r0 r1!,a1,a1 r0!,a2 r1!")
    yield 3, 1, wires("r0 a0 a1,r0 a2")  # two wires, through a alone
    yield 3, 1, wires("r0 b0 b1,r0 b2")
    yield 3, 1, wires("r0 b0 b1 a0,r0 b2 a1!")
    yield 3, 1, wires("r0 s00 s11,r0 s21")
    yield 3, 1, wires("r0 s00 s11,r0 s12")
    yield 3, 1, wires("r0 a0 a1,r0 a1 a2")  # a share that two uses cancel
    yield 3, 1, wires("r0,a1,r0,r0 a0 a1 a2")  # {2, 3} comes before {0, 3}
    yield 3, 1, wires("r0,a1!,r0!,r0 a0 a1 a2!")
    yield 4, 3, wires("r0 a0,r2 a0,r0 r1 a1,r2 r1 a1,r1 a2 a3")  # {1, 3, 4} comes before {0, 2, 4}
    yield 4, 3, wires("r0 b0!,r2 b0!,r0 r1 b1,r2 r1 b1,r1 b2 b3")
    yield 4, 2, wires("r0 a0,r0 r1 a1,r1 a2 a3")  # three wires, no two
    yield 4, 2, wires("r0 b0,r0 r1 b1,r1 b2 b3")
    yield 4, 2, wires("r0 b0!,r0 r1 b1,r1 b2!")
    yield 4, 2, wires("r1 a3 a2,b0,r0 a0,b3,r0 r1 a1,r1 a2 a3,r0 a0")
    yield 4, 3, wires("r0 s00,r0 r1 s11,r1 r2 s22,r2 s33")  # four wires would be needed


def chains():
    """Breaks that need all wires of a table of so many, up to seven on eight shares, and one that only SNI has because a wire is outer."""
    yield 5, 3, wires("r0 a0,r0 r1 a1,r1 r2 a2,r2 a3 a4")
    yield 6, 4, wires("r0 b0,r0 r1 b1,r1 r2 b2,r2 r3 b3,r3 b4 b5")
    yield 7, 5, wires("r0 a0,r0 r1 a1,r1 r2 a2,r2 r3 a3,r3 r4 a4,r4 a5 a6!")
    yield 8, 6, wires("r0 b0 b1,r0 r1 b2,r1 r2 b3,r2 r3 b4,r3 r4 b5,r4 r5 b6,r5 b7")
    yield 8, 6, wires("r0 a0,r0 r1 a1,r1 r2 a2,r2 r3 a3,r3 r4 a4,r4 r5 a5,r5 a6!")


def drawn():
    """Tables by a generator, so many for each way in which the first breaks under NI and SNI can lie."""
    draw = random.Random(5)
    quota = Counter()
    while sum(quota.values()) < 3 * sum(s * (s + 1) // 2 for s in (2, 3, 4)):
        shares, masks = draw.randrange(2, 5), draw.randrange(4)
        table = [drawn_wire(draw, shares, masks) for _ in range(draw.randrange(4, 9))]
        records = [w.bytes() for w in table]
        kind = (shares, *(len(first_breaking(records, notion, shares - 1) or "") for notion in (NI, SNI)))
        if quota[kind] < 3:
            quota[kind] += 1
            yield shares, masks, table


def drawn_wire(draw, shares, masks):
    share = lambda: str(draw.randrange(shares))
    result = []
    for _ in range(draw.choice((1, 1, 1, 2, 3))):
        result.append(draw.choice(("a" + share(), "b" + share(), "s" + share() + share())))
    if masks and draw.random() < 0.7:
        result += ["r%d" % draw.randrange(masks) for _ in range(draw.choice((1, 1, 2)))]
    if masks and draw.random() < 0.1:
        result = ["r%d" % draw.randrange(masks)]
    return wire(" ".join(result) + "!" * (draw.random() < 0.3))


def cases():
    """Shares, masks, wires, and the table's bytes: those that are not judged are 0 in every third table and anything in the others."""
    draw = random.Random(19)
    for n, (shares, masks, table) in enumerate(itertools.chain(scope_texts(), hand_made(), chains(), drawn())):
        yield shares, masks, table, b"".join(w.bytes(draw.randbytes(5) if n % 3 else bytes(5)) for w in table)


def main():
    if sys.argv[1:] == ["cases"]:
        for shares, masks, _, table in cases():
            sys.stdout.buffer.write(bytes([shares, masks]) + len(table).to_bytes(2, "little") + table)
    elif sys.argv[1:] == ["answers"]:
        compared = Compared()
        for shares, masks, named, table in cases():
            compared.table(shares, masks, named, records_of(table))
            case_lines(table, shares, masks)
        limit_lines()
        order_lines()
        large_lines()
        compared.told()
    else:
        sys.exit(__doc__)


if __name__ == "__main__":
    main()
