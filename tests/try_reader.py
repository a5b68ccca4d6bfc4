#!/usr/bin/env python3
"""Writes the input of the program `try_reader`, and works its output out from the scope, with no look at the crates.

usage: try_reader.py cases > crates/try_reader/stdin     try_reader.py answers > crates/try_reader/stdout     try_reader.py counts

A text is read in three passes. It is cut into lines, and the first two are compared with their form. The faults of all other lines are listed,
each with its offset and its place in the scope's order, and the lowest is the answer. Only where there is none are the lines made trees of items,
and the trees worked out into wires, whose terms are sets. `counts` tells how many cases there are of each answer.
"""
import collections
import itertools
import random
import re
import sys

RECORD, MOST_TEXT, MOST_WIRES, MOST_OPEN, MOST_TABLE = 24, 4096, 512, 16, 12288

# The faults of output lines in the order that they have at one offset, and their numbers.
TOO_MANY, TOO_DEEP, BAR, NO_SYMBOL, NOT_DECLARED, NOT_PAIRED, TOO_FEW, NO_ROOM = range(8)
NUMBERS = [9, 8, 7, 4, 5, 6, 9, 10]

Reading = collections.namedtuple("Reading", "order shares masks wires table")
Refusal = collections.namedtuple("Refusal", "number offset")
Item = collections.namedtuple("Item", "start end what")  # what is a symbol's term, or a group as the list of its items
Wire = collections.namedtuple("Wire", "terms outer line start end")


def little(n, size):
    """A number in so many bytes, the lower first."""
    return n.to_bytes(size, "little")


def lines_of(text):
    """The lines and where each starts. A line ends at byte 10; the last may lack it."""
    start = 0
    while start < len(text):
        end = text.find(b"\n", start)
        end = len(text) if end < 0 else end
        yield start, text[start:end]
        start = end + 1


def mask_number(name):
    """r and a number 0 to 63 without leading zeros."""
    if re.fullmatch(rb"r(0|[1-9][0-9]*)", name) and int(name[1:]) <= 63:
        return int(name[1:])
    return None


def declared(line):
    """The masks of the second line, or None if it is not exactly of its form."""
    if not (line.startswith(b"MASKS = [") and line.endswith(b"]")):
        return None
    names = line[len(b"MASKS = [") : -1]
    masks = [mask_number(name) for name in names.split(b", ")] if names else []
    return None if None in masks or len(set(masks)) < len(masks) else set(masks)


def term(symbol, order, masks):
    """What a symbol stands for; if nothing, its fault."""
    shares = [int(digit) for digit in re.findall(rb"[0-9]", symbol)]
    if re.fullmatch(rb"s[0-9][0-9]|[ab][0-9]", symbol):
        return (chr(symbol[0]), *shares) if max(shares) <= order else NO_SYMBOL
    mask = mask_number(symbol)
    if mask is None:
        return NO_SYMBOL
    return ("r", mask) if mask in masks else NOT_DECLARED


def words(start, line):
    """The parentheses, bars and symbols of a line, each with its offset."""
    for word in re.finditer(rb"[()|]|[^ ()|]+", line):
        yield start + word.start(), word[0]


def line_faults(start, line, order, masks):
    """Every fault of an output line. What is found after the first of them decides nothing."""
    opened, before = 0, None
    for at, word in words(start, line):
        if word == b"(":
            if opened >= MOST_OPEN:
                yield at, TOO_DEEP
            opened += 1
        elif word == b")":
            if opened == 0 or before == b"(":
                yield at, NOT_PAIRED
            opened -= 1
        elif word == b"|":
            yield at, BAR
        elif term(word, order, masks) in (NO_SYMBOL, NOT_DECLARED):
            yield at, term(word, order, masks)
        before = word
    if opened > 0:
        yield start + len(line), NOT_PAIRED


def tree(start, line, order, masks):
    """The items of a line without faults."""
    groups, opened = [[]], []
    for at, word in words(start, line):
        if word == b"(":
            opened.append(at)
            groups.append([])
        elif word == b")":
            inside = groups.pop()
            groups[-1].append(Item(opened.pop(), at + 1, inside))
        else:
            groups[-1].append(Item(at, at + len(word), term(word, order, masks)))
    return groups[0]


class Wires:
    """The wires of the lines worked out so far."""

    def __init__(self):
        self.list, self.used = [], set()

    def item(self, item):
        if isinstance(item.what, list):
            return self.group(item.what)
        if item.what not in self.used:
            self.used.add(item.what)
            self.list.append(Wire({item.what}, 0, 0, item.start, item.end))
        return {item.what}

    def group(self, items):
        total = self.item(items[0])
        for item in items[1:]:
            total = total ^ self.item(item)
            self.list.append(Wire(total, 0, 0, items[0].start, item.end))
        return total

    def line(self, number, items):
        self.group(items)
        while len(items) == 1 and isinstance(items[0].what, list):
            items = items[0].what
        if len(items) == 1:  # a single symbol, parentheses apart
            self.list.append(Wire({items[0].what}, 1, number, items[0].start, items[0].end))
        else:
            self.list[-1] = self.list[-1]._replace(outer=1, line=number)


def record(wire):
    """The 24 bytes of a wire."""

    def bits(letter, size):
        numbers = [8 * t[1] + t[2] if letter == "s" else t[1] for t in wire.terms if t[0] == letter]
        return little(sum(1 << n for n in numbers), size)

    kind = bytes([wire.outer, wire.line])
    return bits("s", 8) + bits("r", 8) + bits("a", 1) + bits("b", 1) + kind + little(wire.start, 2) + little(wire.end - wire.start, 2)


def read(text, lent, lister=Wires):
    """What reading answers, given the text and the length of the lent table."""
    if len(text) > MOST_TEXT:
        return Refusal(1, MOST_TEXT)
    lines = list(lines_of(text))
    if not lines or lines[0][1] not in [b"ORDER = %d" % n for n in range(1, 8)]:
        return Refusal(2, 0)
    order = int(lines[0][1][-1:])
    if len(lines) == 1:
        return Refusal(3, len(text))
    masks = declared(lines[1][1])
    if masks is None:
        return Refusal(3, lines[1][0])
    output = [(start, line) for start, line in lines[2:] if line.strip(b" ")]
    faults = [fault for line in output for fault in line_faults(*line, order, masks)]
    faults += [(start + len(line) - len(line.lstrip(b" ")), TOO_MANY) for start, line in output[order + 1 :]]
    if len(output) < order + 1:
        faults.append((len(text), TOO_FEW))
    wires = lister()
    if not faults:
        for number, line in enumerate(output):
            wires.line(number, tree(*line, order, masks))
        if len(wires.list) > MOST_WIRES or RECORD * len(wires.list) > lent:
            faults.append((len(text), NO_ROOM))
    if faults:
        offset, fault = min(faults)
        return Refusal(NUMBERS[fault], offset)
    return Reading(order, order + 1, max(masks, default=-1) + 1, len(wires.list), b"".join(map(record, wires.list)))


def text_part_check(text, table, wire):
    """The refusal's number, or offset and length."""
    if len(table) % RECORD or len(table) > MOST_TABLE:
        return 12
    if wire >= len(table) // RECORD:
        return 21
    at = RECORD * wire
    offset, length = (int.from_bytes(table[at + k : at + k + 2], "little") for k in (20, 22))
    return 22 if offset + length > len(text) else (offset, length)


def text_part(text, table, wire):
    """The part of the text; refused, nothing."""
    answer = text_part_check(text, table, wire)
    return b"" if isinstance(answer, int) else text[answer[0] : answer[0] + answer[1]]


def checksum(data):
    """A polynomial of the bytes, each raised by one, at a fixed place, modulo a prime."""
    total = 0
    for byte in data:
        total = (total * 2654435761 + byte + 1) % 4294967291
    return total


def lent_table(length):
    """What a lent table holds beforehand."""
    return bytes((165 + 89 * i) % 256 for i in range(length))


def reading_line(text, lent):
    """The answer, the parts of all wires one after the other, and what the lent table holds afterwards."""
    answer, before = read(text, lent), lent_table(lent)
    if isinstance(answer, Refusal):
        return "refused %d at %d table %d" % (*answer, checksum(before))
    *told, table = answer
    named = b"".join(text_part(text, table, wire) for wire in range(answer.wires))
    return "order %d shares %d masks %d wires %d parts %d table %d" % (*told, checksum(named), checksum(table + before[len(table) :]))


def part_line(text, table, wire):
    """The check's answer, and the length and the checksum of the part itself."""
    answer, part = text_part_check(text, table, wire), text_part(text, table, wire)
    told = "refused %d" % answer if isinstance(answer, int) else "part at %d length %d" % answer
    return told + " bytes %d sum %d" % (len(part), checksum(part))


# The cases: a reading is a text and the length of the lent table, a part is a text, a table and a wire number.


def listed(words):
    return words.split(b"~")


def head(order, masks=()):
    return b"ORDER = %d\nMASKS = [%s]\n" % (order, b", ".join(b"r%d" % k for k in masks))


def body(*lines):
    return b"".join(line + b"\n" for line in lines)


def padded(start, length, end=b"", filling=b" "):
    return start + filling * (length - len(start) - len(end)) + end


def fitting(text):
    """The text with a table that just holds its wires, or one of ten records if it has none."""
    answer = read(text, MOST_TABLE)
    return text, len(answer.table) if isinstance(answer, Reading) else 10 * RECORD


TEXT_A = head(1, [0]) + body(b"s00 r0", b"s11 ((r0 s01) s10)")
TEXT_B = head(1, [0]) + body(b"s00 r0", b"s11 (s01 s10) r0")
TEXT_C = head(1) + body(b"a0 b0", b"a1 b1")

# Source document 002: the order 2 example and DOM-indep of section 4.3, figures 8 and 9.
ORDER_TWO = head(2, [0, 1, 2]) + body(b"s00 r0 s01 s10 r1", b"s11 r1 s12 s21 r2", b"s22 r2 s20 s02 r0")
DOM_INDEP = head(2, [0, 1, 2]) + body(b"s00      (s01 r0|) (s02 r1|)", b"(s10 r0|) s11      (s12 r2|)", b"(s20 r1|) (s21 r2|) s22")
FIGURE_8 = b"""s00 r00 s01 s10 r01 s02 s20 r08 s03 s30 r09 s04 r20
s11 r01 s12 s21 r02 s13 s31 r09 s14 s41 r10 s15 r21
s22 r02 s23 s32 r03 s24 s42 r10 s25 s52 r11 s26 r22
s33 r03 s34 s43 r04 s35 s53 r11 s36 s63 r12 s37 r23
s44 r04 s45 s54 r05 s46 s64 r12 s47 s74 r13 s40 r20
s55 r05 s56 s65 r06 s57 s75 r13 s50 s05 r14 s51 r21
s66 r06 s67 s76 r07 s60 s06 r14 s61 s16 r15 s62 r22
s77 r07 s70 s07 r00 s71 s17 r15 s72 s27 r08 s73 r23
"""
FIGURE_9 = b"""s00 r00 r01 r10 r20
s11 r01 r02 r11 r20
s22 r02 r03 r12 r20
s33 r03 r04 r13 r20
s44 r04 r05 r10
s55 r05 r06 r11
s66 r06 r07 r12
s77 r07 r00 r13
"""


def gadget(figure):
    """A figure of 002 with its masks declared, and written without leading zeros."""
    figure = re.sub(rb"r0([0-9])", rb"r\1", figure)
    return head(7, sorted({int(k) for k in re.findall(rb"r([0-9]+)", figure)})) + figure


def of_wires(count):
    """A text of so many wires, 9 at least: seven lines of one symbol, then additions."""
    return head(7) + b"a0\n" * 7 + b" ".join([b"a0"] * (count - 7)) + b"\n"


def examples():
    """What the scope itself says of texts."""
    outer = lambda text: [w for w, kind in enumerate(read(text, MOST_TABLE).table[18::RECORD]) if kind]
    assert read(TEXT_A, 216)[:4] == (1, 2, 1, 9) and outer(TEXT_A) == [2, 8]
    assert read(b"", 0) == (2, 0)
    assert read(head(1) + b"()\na0\n", 0) == (6, len(head(1)) + 1)
    assert read(ORDER_TWO, MOST_TABLE).wires == 24
    assert read(padded(TEXT_A, 4096), 216).wires == 9 and read(padded(TEXT_A, 4097), 216) == (1, 4096)
    deep = lambda n: head(1) + b"(" * n + b"a0" + b")" * n + b"\na0\n"
    assert read(deep(16), 72).wires == 3 and read(deep(17), 72) == (8, len(head(1)) + 16)
    assert read(of_wires(512), MOST_TABLE).wires == 512 and read(of_wires(513), 2 * MOST_TABLE) == (10, len(of_wires(513)))


def printed_texts():
    """The scope's texts and those of 002, with tables of every length that matters; text A cut anywhere, and without any one byte."""
    for text in (TEXT_A, TEXT_B, TEXT_C, ORDER_TWO, DOM_INDEP, DOM_INDEP.replace(b"|", b""), gadget(FIGURE_8), gadget(FIGURE_9)):
        need = fitting(text)[1]
        for lent in (0, 23, 24, need - 24, need - 1, need, need + 1, need + 23, need + 24, need + 240):
            yield text, lent
    for figure in (FIGURE_8, FIGURE_9):
        yield fitting(head(7, range(24)) + figure)
    for at in range(len(TEXT_A)):
        yield TEXT_A[:at], 216
        yield fitting(TEXT_A[:at] + TEXT_A[at + 1 :])


def first_lines():
    """Refusal 2, and every order."""
    wrong = b"~ ~ORDER~ORDER = ~ORDER = 0~ORDER = 8~ORDER = 9~ORDER = 10~ORDER = 01~ORDER = 1 ~ ORDER = 1~ORDER=1~ORDER = 1\r~ORDER = \t1~ORDER\t= 1"
    more = b"ORDER  = 1~ORDER =  1~order = 1~ORDER = a~ORDER = /~ORDER = :~ORDER = (1~ORDER = |~ORDER : 1~XRDER = 1~ORDER = 1\0~ORDER = -1~\xff~MASKS = []~a0"
    for line in listed(wrong) + listed(more):
        yield fitting(line + b"\nMASKS = [r0]\na0\nb0\n")
    for text in (b"", b"\n", b"\n\n", b" ", b"\0", b"ORDER", b"ORDER = ", b"ORDER = 8", b"ORDER = 1 "):
        yield text, 0
    for text in (b"\n" + TEXT_A, b" " + TEXT_A, TEXT_A[1:], b"\xef\xbb\xbf" + TEXT_A, TEXT_A.replace(b"\n", b"\r\n")):
        yield fitting(text)
    for order in range(10):
        yield fitting(head(order) + body(*[b"a%d" % i for i in range(order + 1)]))


def second_lines():
    """Refusal 3, and MASKS lines that are good."""
    lines = b"~ ~MASKS~MASKS = ~MASKS = [~MASKS = ]~MASKS = [ ]~MASKS = [r0~MASKS = r0]~MASKS = r0~MASKS = (r0)~MASKS=[r0]~MASKS =[r0]~MASKS  = []"
    more = b" MASKS = []~MASKS = [] ~MASKS = []\r~MASKS = []]~MASKS = [[r0]~MASKS = [[]]~masks = []~MASKS = []r0~MASKS = [] []~ORDER = 1~a0 b0~MASKS = []"
    for line in listed(lines) + listed(more):
        yield fitting(b"ORDER = 1\n" + line + b"\na0\nb0\n")
    names = b"r0,r1~r0 r1~r0,  r1~r0, r1, ~, r0~, ~,~r0, r1,~r0 , r1~ r0~r0 ~r0,\tr1~r0; r1~r0, , r1~r0, r0~r5, r1, r5~r63, r62, r63~r64~r00~r01~r063~r100"
    more = b"r640~r~r0, r~R0~a0~s00~0~r0, 1~r-1~r+1~r1.~r 1~r0|~\0~r\xff~r/~r:~r1:~r6/~r6:~rr0~r0r1~r0~r63~r63, r0~r2, r1, r0~r10, r1, r0~r9, r10, r11"
    for some in listed(names) + listed(more):
        yield fitting(b"ORDER = 1\nMASKS = [" + some + b"]\na0\nb0\n")
    for some in (range(64), range(63, -1, -1), range(65), [*range(64), 0], [*range(64), 63], range(0, 64, 2)):
        yield fitting(head(1, some) + b"a0\nb0\n")
    for text in listed(b"ORDER = 1~ORDER = 1\n~ORDER = 7\n\n~ORDER = 1\n ~ORDER = 1\nMASKS = [~ORDER = 1\nMASKS = [r0]~ORDER = 1\nMASKS = []\n"):
        yield fitting(text)


def symbols():
    """Refusals 4 and 5; every byte, every mask, every share, every product."""
    wrong = b"s~s0~s000~s0 0~S00~s0a~sa0~ss00~s-1~s02~s20~s22~s08~s90~s0/~s:0~a~a00~a2~a9~A0~a/~b~b2~b01~B0~b:~c0~ab~r~r00~r01~r64~r70~r99~r100~r640~r063~r0x"
    more = b"r 0~r/~r:~r6:~R0~0~1~+~a0+b0~a0,b0~[r0]~ORDER~MASKS = []~r63~r1~r62~r10~a0\t~\ta0~\t~a0\r~\r~\0~a0\0~\xff~a\xb0~a0|~|"
    for word in listed(wrong) + listed(more):
        yield fitting(head(1, [0]) + body(word, b"a0"))
        yield fitting(head(1, [0]) + body(b"a0", b" b0 (" + word + b") a1"))
    for byte in range(256):
        yield fitting(head(1) + b"a0 %c\nb0" % byte)
    for k in range(64):
        yield fitting(head(1, [k]) + body(b"r%d" % k, b"a0 r%d" % k))
        yield fitting(head(1, [k]) + body(b"a0", b"b0 r%d" % ((k + 1) % 64)))
        yield fitting(head(1, sorted({5, 31, 32, 63} - {k})) + body(b"r%d" % k, b"a0"))
    yield fitting(head(7, range(64)) + body(*[b" ".join(b"r%d" % (8 * i + j) for j in range(8)) for i in range(8)]))
    for order in range(1, 8):
        shares, beyond = range(order + 1), order + 1
        yield fitting(head(order) + body(*[b" ".join(b"s%d%d" % (i, j) for j in shares) for i in shares]))
        yield fitting(head(order) + body(*[b" ".join(b"s%d%d" % (i, j) for i in shares) for j in shares]))
        yield fitting(head(order) + body(*[b"a%d b%d" % (i, i) for i in shares]))
        for word in (b"a%d" % beyond, b"b%d" % beyond, b"s%d0" % beyond, b"s0%d" % beyond, b"a%d" % order, b"b%d" % order):
            yield fitting(head(order) + body(*[b"a0"] * order, word))
    for i, j in itertools.product(range(8), repeat=2):
        yield fitting(head(max(i, j, 1)) + body(b"s%d%d" % (i, j), *[b"a0"] * max(i, j, 1)))


def combed(deep, left):
    """A group that is nested `deep` times, always in its first item or always in its last."""
    line = b"a0"
    for k in range(deep):
        line = b"(%s s%d%d)" % (line, k % 2, k // 2 % 2) if left else b"(b%d %s)" % (k % 2, line)
    return line


def nestings():
    """Refusals 6 and 8, one-symbol lines, and groups as deep as may be."""
    for deep in (1, 2, 3, 15, 16, 17, 18):
        opened, closed = b"(" * deep, b")" * deep
        whole = [opened + b"a0" + closed, opened + b"a0 b0" + closed, b"a1 " + opened + b"a0" + closed + b" b1", combed(deep, True), combed(deep, False)]
        broken = [opened, opened + b"a0", opened + closed, opened + b"a0" + closed + b")", opened[1:] + b"a0" + closed, opened + b"a0)((b0" + closed]
        for line in [*whole, *broken, opened + b" a0)(b0 " + closed]:
            yield fitting(head(1) + body(line, b"b1"))
            yield fitting(head(1) + body(b"b1") + line)
    lines = b"()~( )~(())~(()~a0 ()~() a0~(a0 ())~(a0~((a0)~(a0))~)~)(~a0)~a0 )~(~a0 (~a0(~(a0)(b0)~(a0)b0~a0(b0)~a0(b0)a1~( a0 )~ ( a0)~((a0) )~((a0)(b0))"
    more = b"(a0 b0)(a0 b0)~((a0 b0))~a0 a0~(a0 a0)~a0 a0 a0~(a0) a0~b1~(b1)~b1 b1~a0  b0~  a0~a0  ~s01 s10~(s01 s10)~(s01)(s10)~s01s10~a0b0~((a0 b0) b1)"
    last = b"(a0 (b0 b1))~((a0 b0) (a1 b1))~(a0 b0) (a1 b1)~(a0)((b0))(((a1)))~((b1 a0))~(|)~(a0|)~a0|~a0 | b0~|a0~(a0 b0)|"
    for line in listed(lines) + listed(more) + listed(last):
        yield fitting(head(1) + body(line, b"b1"))
        yield fitting(head(1) + body(b"b1", line))
        yield fitting(head(1) + body(b"b1", b"", b"  ") + line)


def line_counts():
    """Refusal 9 from both sides, and lines that are skipped."""
    for order in (1, 2, 3, 7):
        for count in sorted({0, 1, order - 1, order, order + 1, order + 2, order + 3}):
            lines = [b"a0"] * count
            yield fitting(head(order) + body(*lines))
            yield fitting(head(order) + b"\n".join(lines))
            yield fitting(head(order) + b"\n  \n".join([b"", *lines, b"   "]))
            yield fitting(head(order) + b"\n\n\n".join([b"  " + line + b"  " for line in lines]) + b"\n\n")


def together():
    """Several faults in one text: the lowest offset wins, and at one offset the scope's order."""
    good = body(b"a0", b"b0")
    for more in listed(b"(~)~|~x~r9~r64~a0~" + b"(" * 17 + b"~()~\t~\0~((|"):
        yield fitting(head(1) + good + more)
        yield fitting(head(1) + good + b"\n   " + more + b" x\n")
        yield fitting(head(1) + b"a0\n" + more + b" |\nr9\n(" + more)
        yield fitting(head(1) + b"a0 " + more)
        yield fitting(head(1) + b"(a0 " + more)
        yield fitting(b"ORDER = 1\nMASKS = [r0\n" + more + b"\n" + good)
        yield fitting(b"ORDER = 9\nMASKS = [r0\n" + more + b"\n" + good)
    for lines in listed(b"(a0\n(b0\n~(a0\n|b0\n~a0\n(b0~(a0~(~a0\n(~a0\nb0\n(~a0\nb0\n  \n  (~r1 x~x r1~r1 |~| r1~a0\nb0 )(~a0)\n|"):
        for lent in (0, 71, 72):
            yield head(1) + lines, lent


def small_bodies():
    """All that up to four words after the heading can be, with one good line after them."""
    for count in range(5):
        for chosen in itertools.product([b"a0", b" ", b"(", b")", b"\n"], repeat=count):
            yield fitting(head(1) + b"".join(chosen) + b"\nb0")


def large_texts():
    """Refusals 1 and 10; texts of 4,096 bytes; 512 wires."""
    for count, lent in ((512, 12287), (512, 12288), (512, 12289), (512, 16384), (511, 12263), (511, 12264), (513, 12312), (513, 16384)):
        yield of_wires(count), lent
    two, few = head(1) + b"a0\nb0", [b"", b"ORDER = 1", b"ORDER = 1\nMASKS = []", head(1), head(1) + b"a0 (b0"]
    for start in [TEXT_A, TEXT_C, ORDER_TWO, DOM_INDEP, two, two + b"\na", two[:-2] + b"x", *few]:
        for length in (4095, 4096, 4097, 4098, 8192):
            yield fitting(padded(start, length))
    yield padded(two, 4096), 71
    yield padded(two, 4097), 0
    yield fitting(padded(two, 4096, filling=b"\n"))
    yield fitting(padded(head(1) + b"a0", 4096, b"b0\nb1"))
    yield fitting(padded(head(1) + b"a0\n", 4096, b"(b0)"))
    yield fitting(padded(two, 4096, b"("))
    yield fitting(padded(two + b"\n", 4096, b"|"))
    yield fitting(head(1) + b"a0\na" + b"0" * 3999)
    yield fitting(head(1) + b"a0\nr" + b"1" * 3999 + b"\n")


def random_group(draw, names, deep):
    """A group of one item or more, with spaces where they must be and where they may be."""
    line = b""
    for _ in range(draw.choice([1, 1, 2, 2, 2, 3, 3, 4])):
        nested = deep > 0 and draw.random() < 0.3
        item = b"(" + random_group(draw, names, deep - 1) + b")" if nested else draw.choice(names)
        touching = line != b"" and line[-1:] not in b" )" and not nested
        line += b" " * (touching + draw.choice([0, 0, 0, 0, 0, 0, 0, 0, 1, 2])) + item
    return line + b" " * (draw.random() < 0.1)


def random_text(draw):
    """A text without faults."""
    order = draw.choice([1, 1, 1, 1, 1, 1, 2, 2, 3, 3, 4, 5, 6, 7])
    masks = draw.sample(range(64), draw.choice([0, 1, 1, 2, 3]))
    share = lambda: draw.randrange(order + 1)
    names = [b"s%d%d" % (share(), share()) for _ in range(5)] + [b"a%d" % share(), b"b%d" % share()] + [b"r%d" % k for k in masks]
    deep = draw.choice([0, 1, 1, 2, 3, 5]) // (1 if order < 4 else 2)
    text = head(order, masks)
    for _ in range(order + 1):
        text += b" " * draw.choice([0, 0, 0, 0, 3]) + b"\n" * draw.choice([0, 0, 0, 0, 1]) + b" " * draw.choice([0, 0, 0, 1])
        text += random_group(draw, names, deep) + b"\n"
    return text[: len(text) - draw.randrange(2)] + draw.choice([b"", b"", b"", b"\n", b"  ", b"\n \n"])


def damaged(draw, text):
    """The text with one thing changed, more often after the heading."""
    start = text.index(b"]") + 1 if b"]" in text and draw.random() < 0.88 else 0
    at = draw.randrange(start, len(text)) if start < len(text) else 0
    byte = bytes([draw.choice(b"   ()()||\n\n\0\t\r\xff0123456789abrs[],")])
    some = draw.choice(listed(b"()~( )~)~" + b"(" * 17 + b"~ r63 ~ r7 ~|~ s99 ~("))
    lines = re.findall(rb"[^\n]*\n|[^\n]+", text)
    line = draw.randrange(min(2, len(lines) - 1), len(lines)) if lines else 0
    return draw.choice([
        text[:at] + byte + text[at + 1 :],  # a byte changed, removed, put in
        text[:at] + text[at + 1 :],
        text[:at] + byte + text[at:],
        text[:at] + some + text[at:],
        text[:at],
        b"".join(lines[:line] + lines[line + 1 :]),  # a line dropped, doubled
        b"".join(lines[: line + 1] + lines[line:]),
    ])  # fmt: skip


def random_readings():
    """Texts without faults and texts with one to three things changed, some of them long; at last, gadgets of some hundred wires."""
    draw = random.Random(4)
    for n in range(1860):
        text = random_text(draw)
        for _ in range([0, 0, 1, 2, 3][n % 5]):
            text = damaged(draw, text)
        if n % 17 == 0:
            text = padded(text, draw.choice([4096, 4097, draw.randrange(8192)]))
        need = fitting(text)[1]
        longer, shorter = need + draw.randrange(300), max(need - draw.randrange(1, 50), 0)
        yield text, draw.choice([need, need, need, need + draw.randrange(50), longer, shorter, draw.randrange(need + 1)])
    share = range(8)
    names = [b"s%d%d" % (i, j) for i in share for j in share] + [b"%c%d" % (x, i) for x in b"ab" for i in share] + [b"r%d" % k for k in range(64)]
    for n in range(6):
        lines = [b"".join(b"(%s)" % random_group(draw, names, 14) for _ in range(4 + 4 * n // 3)) for _ in range(8)]
        yield fitting(head(7, range(64)) + b"\n".join(lines))


def readings():
    for kind in (printed_texts, first_lines, second_lines, symbols, nestings, line_counts, together, small_bodies, large_texts, random_readings):
        yield from kind()


def placed(offset, length, rest=bytes(range(100, 120))):
    """A record whose part is at that place."""
    return rest + little(offset, 2) + little(length, 2)


def parts():
    """Text parts: the tables of texts that are read; both sides of every limit; random tables."""
    for text in (TEXT_A, TEXT_B, TEXT_C):
        answer = read(text, MOST_TABLE)
        for wire in range(answer.wires + 2):
            yield text, answer.table, wire
    for wire in (0, 8, 23, 24):
        yield ORDER_TWO, read(ORDER_TWO, MOST_TABLE).table, wire
    for text in (b"", b"x", b"0123456789"):
        size = len(text)
        near = [(0, 0), (0, 1), (1, 0), (0, size), (size, 0), (1, size), (0, size + 1), (size, 1), (size + 1, 0), (size // 2, size - size // 2)]
        for place in near + [(65535, 0), (0, 65535), (65535, 65535), (65535, 1), (256, 0), (0, 256), (32768, 32768)]:
            yield text, placed(*place), 0
            yield text, placed(0, 0) + placed(*place), 1
    text, records = b"abcdefghij", placed(2, 3) + placed(20, 1) + placed(0, 9)
    for size in (0, 1, 12, 23, 24, 25, 47, 48, 49, 71, 72):
        for wire in (0, 1, 2, 3):
            yield text, records[:size], wire
    for wire in (65535, 65536, 2**32, 2**32 + 1, 2**61, 2**63, 2**64 // 24, 2**64 // 24 + 1, 2**64 - 1):
        yield text, records, wire
        yield text, records[:71], wire
    yield text, placed(9, 9) * 511 + placed(1, 5), 511
    yield text, placed(1, 5) * 513, 0
    yield padded(b"", 4200, b"abcde"), placed(4193, 7), 0
    yield from random_parts()


def random_parts():
    draw = random.Random(5)
    for _ in range(40):
        text = random_text(draw)
        answer = read(text, MOST_TABLE)
        yield text, answer.table, draw.randrange(answer.wires + answer.wires // 8 + 1)
    for _ in range(160):
        text = draw.randbytes(draw.randrange(40))
        table = b"".join(placed(draw.randrange(32), draw.randrange(20), draw.randbytes(20)) for _ in range(draw.randrange(1, 4)))
        table += draw.randbytes(draw.choice([0] * 9 + [1, 8, 23]))
        yield text, draw.choice([table] * 9 + [draw.randbytes(len(table))]), draw.randrange(len(table) // RECORD + (draw.random() < 0.2))


def write_case(kind, lent, size, rest):
    """The head, whose last two bytes are the length of the rest, and the rest."""
    sys.stdout.buffer.write(little(kind, 1) + little(lent, 2) + little(size, 2) + little(len(rest), 2) + rest)


def tally():
    """How many cases there are of each kind and each answer."""
    told = collections.Counter(re.sub("order [0-9]", "read", " ".join(reading_line(*case).split()[:2])) for case in readings())
    told.update(re.sub("part at", "part", " ".join(part_line(*case).split()[:2])) for case in parts())
    for answer in sorted(told, key=lambda words: (len(words), words)):
        print(told[answer], answer)
    print(sum(told.values()), "cases")


def main():
    examples()
    if sys.argv[1:] == ["cases"]:
        for text, lent in readings():
            write_case(0, lent, len(text), text.rstrip(b" "))  # the program puts the spaces back
        for text, table, wire in parts():
            write_case(1, 0, len(text), little(wire, 8) + text + table)
    elif sys.argv[1:] == ["answers"]:
        for case in readings():
            print(reading_line(*case))
        for case in parts():
            print(part_line(*case))
    elif sys.argv[1:] == ["counts"]:
        tally()
    else:
        sys.exit(__doc__)


if __name__ == "__main__":
    main()
