"""The journey figures of the enquiry desk, over the proved library that tools/library makes ready to link.

A day list is a sequence of whole numbers, five a row: from, to, start, travel, owner. `n` is the number of stops, `a` and `w`
are the interval's readings in seconds. An asker sees the rows whose owner is 0 or the asker. Where a call has an asker, no
answer or refusal depends on any other row, but for the refusals 1 and 2, which are about the list as a whole. The office check
has no asker and reads every row: what it tells is for the data office only.

Each call gives its answer, or Refused. A number that does not fit 32 bits is a ValueError.
"""

import ctypes
import operator
import os
from typing import NamedTuple, Optional, Union

ROW = 5  # numbers of a row
MOST_ROWS = 2048
MOST_STOPS = 256
MOST_PIVOTS = 16
HORIZON = 259200  # the latest reading, in seconds

_SCRATCH = 16384
_UNREACHED = 4294967295
_MOST = 4294967295

# a reply: how many numbers, and what the first says
_REPLY = 5
_REFUSED = 0
_ANSWER = 1
_NONE = 2

_REASONS = {
    1: "the list's length is not a multiple of 5",
    2: "more than 2,048 rows",
    3: "n is 0 or above 256",
    4: "asker above 255",
    5: "a > w, or w above the horizon, 259,200",
    6: "a row is not sound, or starts before the one preceding it",
    7: "the named stop is not below n",
    8: "the pivot list has odd length, or more than 16 pivots",
    9: "a pivot's stop is not below n, or its reading lies outside a to w",
    10: "out shorter than n (table: n × n), or scratch shorter than 16,384",
    11: "an owner above 255",
    12: "a joined pair without a route",
}


class Value(NamedTuple):
    """The greatest distance in seconds. A diameter has its pair of stops and the visits too."""

    value: int
    source: Optional[int] = None
    target: Optional[int] = None
    visits: Optional[int] = None


class Nothing(NamedTuple):
    """No stop or pair that counts is reached. A diameter has the visits."""

    visits: Optional[int] = None


class Done(NamedTuple):
    """The distances in seconds, None where there is no journey; of a table, a list for each source."""

    distances: list


class Rows(NamedTuple):
    """Nothing is wrong with the list, and it has this many rows."""

    rows: int


class Refused(NamedTuple):
    """Why there is no answer: a number of the desk's table, and the wrong row's or pivot's number where it has one."""

    number: int
    place: int

    def __str__(self):
        where = {6: f" (row {self.place})", 9: f" (pivot {self.place})", 11: f" (row {self.place})"}
        reason = _REASONS.get(self.number, "not in the table")
        return f"refused {self.number}: {reason}{where.get(self.number, '')}"


_library = None


def load(path=None):
    """Loads the shared object: `path`, else libfigures_c.so in the folder that the environment variable FIGURES_LIBRARY
    names, else the one that tools/library makes. The first call does it where this was not called before."""
    global _library
    if path is None:
        here = os.path.dirname(os.path.abspath(__file__))
        folder = os.environ.get("FIGURES_LIBRARY") or os.path.join(here, "..", "..", "target", "link")
        path = os.path.join(folder, "libfigures_c.so")
    if not os.path.exists(path):
        raise FileNotFoundError(f"{path} is missing: run tools/library, or give its folder as FIGURES_LIBRARY")
    _library = ctypes.CDLL(path)


def _number(name, given):
    try:
        number = operator.index(given)
    except TypeError:
        number = -1
    if not 0 <= number <= _MOST:
        raise ValueError(f"{name} is {given!r}: it must be a whole number from 0 to 4,294,967,295")
    return ctypes.c_uint32(number)


def _lent(name, numbers):
    """A list as the calls take it: where it is, and how many numbers it has."""
    lent = [_number(f"{name}[{i}]", number) for i, number in enumerate(numbers)]
    return _room(len(lent), lent)


def _room(length, numbers=()):
    return (ctypes.c_uint32 * length)(*numbers), ctypes.c_size_t(length)


def _ask(list, n, asker, a, w):
    return (*_lent("list", list), _number("n", n), _number("asker", asker), _number("a", a), _number("w", w))


def _reply(call, *arguments):
    if _library is None:
        load()
    reply = (ctypes.c_uint32 * _REPLY)()
    function = getattr(_library, call)
    function.restype = None
    function(*arguments, reply)
    return reply


def _refused(reply):
    return Refused(reply[1], reply[2])


def _stops(n):
    """How many places a result needs. Above the limit the call is refused before it looks."""
    return min(operator.index(n), MOST_STOPS)


def _distances(places):
    return [None if distance == _UNREACHED else distance for distance in places]


def _filled(reply, distances):
    return _refused(reply) if reply[0] == _REFUSED else Done(distances)


def _eccentricity(reply):
    return {_REFUSED: _refused(reply), _ANSWER: Value(reply[1]), _NONE: Nothing()}[reply[0]]


def _answer(reply):
    return {_REFUSED: _refused(reply), _ANSWER: Value(*reply[1:]), _NONE: Nothing(reply[4])}[reply[0]]


def distances_from(list, n, asker, a, w, source) -> Union[Done, Refused]:
    """The distance from `source` to each stop."""
    ask = _ask(list, n, asker, a, w)
    out, out_len = _room(_stops(n))
    reply = _reply("figures_distances_from", *ask, _number("source", source), out, out_len)
    return _filled(reply, _distances(out))


def distances_to(list, n, asker, a, w, target) -> Union[Done, Refused]:
    """The distance from each stop to `target`."""
    ask = _ask(list, n, asker, a, w)
    out, out_len = _room(_stops(n))
    reply = _reply("figures_distances_to", *ask, _number("target", target), out, out_len, *_room(_SCRATCH))
    return _filled(reply, _distances(out))


def table(list, n, asker, a, w) -> Union[Done, Refused]:
    """The distances from each source: `distances[u][v]` is the one from stop u to stop v."""
    ask = _ask(list, n, asker, a, w)
    stops = _stops(n)
    out, out_len = _room(stops * stops)
    reply = _reply("figures_table", *ask, out, out_len)
    return _filled(reply, [_distances(out[u * stops : (u + 1) * stops]) for u in range(stops)])


def forward_eccentricity(list, n, asker, a, w, stop) -> Union[Value, Nothing, Refused]:
    """The greatest distance from `stop` to a different stop that is reached."""
    return _eccentricity(_reply("figures_forward_eccentricity", *_ask(list, n, asker, a, w), _number("stop", stop)))


def backward_eccentricity(list, n, asker, a, w, stop) -> Union[Value, Nothing, Refused]:
    """The greatest distance to `stop` from a different stop that reaches it."""
    ask = _ask(list, n, asker, a, w)
    return _eccentricity(_reply("figures_backward_eccentricity", *ask, _number("stop", stop), *_room(_SCRATCH)))


def diameter(list, n, asker, a, w) -> Union[Value, Nothing, Refused]:
    """The greatest distance over reached pairs of different stops, with its pair and the visits."""
    return _answer(_reply("figures_diameter", *_ask(list, n, asker, a, w), *_room(_SCRATCH)))


def pivot_diameter(list, n, asker, a, w, pivots) -> Union[Value, Nothing, Refused]:
    """The same over the pairs that at least one pivot joins. `pivots` has two numbers for each: a stop, then a reading."""
    ask = _ask(list, n, asker, a, w)
    return _answer(_reply("figures_pivot_diameter", *ask, *_lent("pivots", pivots), *_room(_SCRATCH)))


def office_check(list, n) -> Union[Rows, Refused]:
    """What is wrong with the list, all rows read, whoever owns them: for the data office only."""
    reply = _reply("figures_office_check", *_lent("list", list), _number("n", n))
    return _refused(reply) if reply[0] == _REFUSED else Rows(reply[1])
