#!/usr/bin/env python3
"""Each call in a straightforward way, from the definitions: rows as tuples, a list of earliest arrivals, scans in order.

`straightforward.py CALL FILE K` makes the call K times on the day in FILE and writes the seconds a call.
"""
import sys
import time
from collections import namedtuple

UNREACHED = 4294967295
HORIZON = 259200

Day = namedtuple("Day", "n asker a w source target pivots list")


class Refused(Exception):
    """A number of the table, and its place."""


def read_day(text):
    first, pivots, rows = ([int(word) for word in line.split()] for line in text.splitlines())
    return Day(*first, pivots, rows)


def is_sound(row, n):
    start, stop, at, travel, _ = row
    return start < n and stop < n and start != stop and travel >= 1 and at + travel <= HORIZON


def all_rows(day):
    if len(day.list) % 5 != 0:
        raise Refused(1, 0)
    if len(day.list) // 5 > 2048:
        raise Refused(2, 0)
    if not 1 <= day.n <= 256:
        raise Refused(3, 0)
    return [tuple(day.list[i : i + 5]) for i in range(0, len(day.list), 5)]


def own_rows(day):
    rows = [row for row in all_rows(day) if row[4] in (0, day.asker)]
    if day.asker > 255:
        raise Refused(4, 0)
    if day.a > day.w or day.w > HORIZON:
        raise Refused(5, 0)
    last = 0
    for number, row in enumerate(rows):
        if not is_sound(row, day.n) or row[2] < last:
            raise Refused(6, number)
        last = row[2]
    return rows


def scan(day, rows, source, since):
    """The earliest arrivals, as readings, from a source left at `since`."""
    arrivals = [None] * day.n
    arrivals[source] = since
    for start, stop, at, travel, _ in rows:
        here = arrivals[start]
        if here is None or here > at or at + travel > day.w:
            continue
        if arrivals[stop] is None or at + travel < arrivals[stop]:
            arrivals[stop] = at + travel
    return arrivals


def distances(day, rows, source):
    return [UNREACHED if x is None else x - day.a for x in scan(day, rows, source, day.a)]


def distances_from(day):
    return [1, 0, 0, 0, 0], distances(day, own_rows(day), day.source)


def distances_to(day):
    rows = own_rows(day)
    return [1, 0, 0, 0, 0], [distances(day, rows, source)[day.target] for source in range(day.n)]


def table(day):
    rows = own_rows(day)
    return [1, 0, 0, 0, 0], [x for source in range(day.n) for x in distances(day, rows, source)]


def greatest(found, stop):
    """The greatest distance of another stop that is reached, and the lowest such stop."""
    reached = [(x, -other) for other, x in enumerate(found) if other != stop and x != UNREACHED]
    value, other = max(reached, default=(0, 0))
    return value, -other


def eccentricity(found, stop):
    value, _ = greatest(found, stop)
    return [1, value, 0, 0, 0] if value else [2, 0, 0, 0, 0]


def forward_eccentricity(day):
    return eccentricity(distances_from(day)[1], day.source), []


def backward_eccentricity(day):
    return eccentricity(distances_to(day)[1], day.target), []


def visit(bounds, far):
    """The visits by falling bound, where far(v) is the greatest distance to v and its source."""
    best, pair, visits = 0, (0, 0), 0
    for target in sorted(bounds, key=lambda v: (-bounds[v], v)):
        if bounds[target] <= best:
            break
        visits += 1
        value, source = far(target)
        if value > best:
            best, pair = value, (source, target)
    return [1, best, *pair, visits] if best else [2, 0, 0, 0, visits]


def diameter(day):
    rows = own_rows(day)
    found = [distances(day, rows, source) for source in range(day.n)]
    bounds = {}
    for _, stop, at, travel, _ in rows:
        if at >= day.a and at + travel <= day.w:
            bounds[stop] = max(bounds.get(stop, 0), at + travel - day.a)
    return visit(bounds, lambda v: greatest([row[v] for row in found], v)), []


def pivot_diameter(day, pivots):
    rows = own_rows(day)
    found = [distances(day, rows, source) for source in range(day.n)]
    joined = [[UNREACHED] * day.n for _ in range(day.n)]
    bounds = {}
    for p, reading in zip(pivots[::2], pivots[1::2]):
        onward = scan(day, rows, p, reading)
        sources = [u for u in range(day.n) if found[u][p] <= reading - day.a]
        for v in range(day.n):
            if onward[v] is None:
                continue
            bounds[v] = max(bounds.get(v, 0), onward[v] - day.a)
            for u in sources:
                joined[v][u] = found[u][v]
    return visit(bounds, lambda v: greatest(joined[v], v)), []


def pivot_diameter_1(day):
    return pivot_diameter(day, day.pivots[16:18])


def pivot_diameter_16(day):
    return pivot_diameter(day, day.pivots)


def office_check(day):
    rows = all_rows(day)
    last = 0
    for number, row in enumerate(rows):
        if not is_sound(row, day.n) or row[2] < last:
            raise Refused(6, number)
        if row[4] > 255:
            raise Refused(11, number)
        last = row[2]
    return [1, len(rows), 0, 0, 0], []


CALLS = {
    call.__name__: call
    for call in (
        distances_from,
        distances_to,
        table,
        forward_eccentricity,
        backward_eccentricity,
        diameter,
        pivot_diameter_1,
        pivot_diameter_16,
        office_check,
    )
}


def main():
    call, file, k = CALLS[sys.argv[1]], sys.argv[2], int(sys.argv[3])
    with open(file, encoding="ascii") as text:
        day = read_day(text.read())
    begun = time.perf_counter()
    for _ in range(k):
        call(day)
    print((time.perf_counter() - begun) / max(k, 1))


if __name__ == "__main__":
    main()
