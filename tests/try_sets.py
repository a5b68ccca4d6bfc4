#!/usr/bin/env python3
"""What crates/try_sets is to print, worked out from the scope and from nothing in crates/.

usage: tests/try_sets.py > crates/try_sets/stdout
"""
from math import comb


def revolving(n, k):
    """The sets of k out of n wires in revolving-door order."""
    if k == 0:
        return [[]]
    if n == 0:
        return []
    return revolving(n - 1, k) + [s + [n - 1] for s in reversed(revolving(n - 1, k - 1))]


def unrank(n, k, r):
    """The set at a rank of an order too long to list, half by half as the scope says it."""
    if k == 0:
        return []
    without, with_it = comb(n - 1, k), comb(n - 1, k - 1)
    if r < without:
        return unrank(n - 1, k, r)
    return unrank(n - 1, k - 1, with_it - 1 - (r - without)) + [n - 1]


def rank(n, s):
    """The rank of a set in an order too long to list, likewise."""
    if not s:
        return 0
    if s[-1] != n - 1:
        return rank(n - 1, s)
    return comb(n - 1, len(s)) + comb(n - 1, len(s) - 1) - 1 - rank(n - 1, s[:-1])


def line(*parts):
    print(" ".join(str(p) for p in parts))


def count(n, k):
    head = "count %d %d:" % (n, k)
    if n > 512:
        line(head, "refused", 12)
    elif k > 7:
        line(head, "refused", 17)
    else:
        line(head, comb(n, k))


def set_at(n, k, r, buffer):
    head = "set %d %d %d:" % (n, k, r)
    if n > 512:
        line(head, *buffer, "refused", 12)
    elif k > 7:
        line(head, *buffer, "refused", 17)
    elif len(buffer) < k:
        line(head, *buffer, "refused", 16)
    elif r >= comb(n, k):
        line(head, *buffer, "refused", 18)
    else:
        buffer[:k] = revolving(n, k)[r] if n < 30 else unrank(n, k, r)
        line(head, *buffer)
    return buffer


def rank_of(n, s):
    head = " ".join(["rank", str(n)] + [str(x) for x in s]) + ":"
    if n > 512:
        line(head, "refused", 12)
    elif len(s) > 7:
        line(head, "refused", 17)
    elif any(a >= b for a, b in zip(s, s[1:])) or any(x >= n for x in s):
        line(head, "refused", 21)
    else:
        line(head, revolving(n, len(s)).index(s) if n < 30 else rank(n, s))


def job(n, k, i, j):
    head = "job %d %d %d %d:" % (n, k, i, j)
    if n > 512:
        line(head, "refused", 12)
    elif k > 7:
        line(head, "refused", 17)
    elif j == 0 or j > 65536 or i >= j:
        line(head, "refused", 19)
    else:
        line(head, i * comb(n, k) // j, (i + 1) * comb(n, k) // j)


LARGEST = 2 ** 64 - 1
for n in range(6):
    for k in range(4):
        count(n, k)
        for r in range(11):
            rank_of(n, set_at(n, k, r, [9] * 4)[:k])
count(24, 2)
job(24, 2, 3, 7)
count(512, 4)
job(512, 4, 2, 16)
job(512, 7, 65535, 65536)
set_at(24, 2, 1, [9] * 2)
for n, k in (512, 7), (512, 8), (513, 7), (513, 8), (6, 7):
    count(n, k)
for args in (512, 8, 0, 0), (513, 8, 0, 0), (512, 7, 0, 0), (512, 7, 0, 65536), (512, 7, 0, 65537), (512, 7, 7, 7), (512, 7, 6, 7), (3, 4, 6, 7), (3, 4, LARGEST, LARGEST):
    job(*args)
for n, k, r in (512, 7, 10 ** 12), (512, 7, LARGEST), (512, 8, 0), (513, 9, 0), (LARGEST, 9, 0):
    set_at(n, k, r, [9] * 8)
set_at(512, 7, LARGEST, [9] * 6)
set_at(512, 6, 5, [9] * 6)
for n, k, r in (0, 0, 0), (0, 0, 1), (1, 1, 0):
    set_at(n, k, r, [])
for n, s in (513, range(8)), (512, range(8)), (512, range(505, 512)), (511, range(505, 512)), (512, (3, 5, 5)), (512, (5, 3)), (512, (65535,)):
    rank_of(n, list(s))
