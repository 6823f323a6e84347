"""Writes the results: the bars, where the text-book way is faster and why, and the tables."""
from subjects import CALLS, DAYS, LEAN_CALLS, PYTHON_DAYS, ROWS, SEARCHES, STOPS, title

PLAIN_BAR = 1.1
TEXTBOOK_BAR = 20
BY = {"count": "instruction count", "time": "time"}


def shown(cost):
    """A count with commas, or a time in microseconds."""
    return f"{cost:,}" if isinstance(cost, int) else f"{cost * 1e6:,.1f} µs"


def times(ratio):
    if ratio is None:
        return "–"
    digits = 0 if ratio >= 100 else 1 if ratio >= 10 else 2
    return f"{ratio:,.{digits}f}"


def rows_of(head, lines):
    rule = ["---"] + ["---:"] * (len(head) - 1)
    return ["| " + " | ".join(cells) + " |" for cells in (head, rule, *lines)] + [""]


class Results:
    """All that was measured: kind ('count' or 'time'), way, call and day give a cost; call and day the visits."""

    def __init__(self):
        self.costs = {}
        self.visits = {}

    def cost(self, kind, way, call, day):
        return self.costs.get((kind, way, call, day))

    def ratio(self, kind, way, other, call, day):
        """How many times the cost of `other` the cost of `way` is."""
        mine, theirs = self.cost(kind, way, call, day), self.cost(kind, other, call, day)
        return None if mine is None or theirs is None else mine / theirs

    def kinds(self):
        return [kind for kind in ("count", "time") if any(key[0] == kind for key in self.costs)]


def verdict(met):
    return "met" if met else "MISSED"


def plain_bar(results, kind):
    lines = []
    for call in LEAN_CALLS:
        worst, day = max((results.ratio(kind, "library", "plain", call, day), day) for day in DAYS)
        what = f"`{call}` at most {PLAIN_BAR} times plain Rust of the same algorithm"
        lines.append((what, f"{times(worst)} at most, on {day}", verdict(worst <= PLAIN_BAR)))
    return lines


def textbook_bar(results, kind):
    lines = []
    for day, (n, _) in DAYS.items():
        visits = results.visits[("diameter", day)]
        if n == 256 and visits in (1, 2):
            ratio = results.ratio(kind, "textbook", "library", "diameter", day)
            what = f"`diameter` on {day} (visits: {visits}) at least {TEXTBOOK_BAR} times faster than the text-book way"
            lines.append((what, times(ratio), verdict(ratio >= TEXTBOOK_BAR)))
    return lines


def bars(results, kinds):
    parts = []
    for kind in kinds:
        lines = plain_bar(results, kind) if kind == kinds[0] else []
        lines += textbook_bar(results, kind)
        parts += [f"By {BY[kind]}:", "", *rows_of(("bar", "measured", ""), lines)]
    return parts


LEAN = """Beside the bars, lean plain Rust is what one might write without the library's steps in view. It checks the own rows and
makes the legs in one loop, where the library copies the own rows out, checks them, and makes the legs, in three: whatever
comes after the copying then sees the asker's rows alone. The tables below have its ratio too.
"""

TENTH = """On the day where the asker sees a tenth of the rows, the text-book table is small too, and what is left of the diameter's
cost is, by more than half, the same for any number of own rows: reading 2,048 rows, looking for the next target, and
setting lists to 0.
"""


def remarks(results, kind):
    ratio = results.ratio(kind, "textbook", "library", "diameter", "tenth")
    return [LEAN, TENTH] if ratio < TEXTBOOK_BAR else [LEAN]


def passes_of_links(results, kind, day):
    """How many passes the links and one sweep cost as much as."""
    n = DAYS[day][0]
    one = results.cost(kind, "library", "distances_from", day)
    every = results.cost(kind, "library", "table", day)
    back = results.cost(kind, "library", "distances_to", day)
    single = (every - one) / (n - 1)
    return (back - one) / single + 1


def reason(results, kind, call, day):
    """Why the text-book way is faster on a day."""
    if call not in ("distances_to", "backward_eccentricity", *SEARCHES):
        return "Own rows are copied out and legs made before the pass, and the text-book way makes no legs"
    n = DAYS[day][0]
    visits = results.visits.get((call, day), 0)
    causes = [f"The links and one sweep cost as much as {passes_of_links(results, kind, day):.0f} passes"]
    scans = f"{n} scans, one a source"
    if visits > 1:
        causes.append(f"the {visits} visits take a sweep each")
    if call.startswith("pivot"):
        pivots = int(call.rsplit("_", 1)[1])
        causes.append("every pivot takes two passes")
        scans = f"{n + pivots} scans, one a source and one a pivot"
    return f"{', and '.join(causes)}; the text-book way makes {scans}"


def slower(results, kind):
    lines = []
    for day in DAYS:
        for call in CALLS:
            ratio = results.ratio(kind, "textbook", "library", call, day)
            if ratio is not None and ratio < 1:
                why = reason(results, kind, call, day)
                lines.append(f"- {day}, {title(call)}: {times(ratio)}. {why}.")
    return [*(lines or ["Nowhere."]), ""]


def day_table(results, kind, day):
    head = ["call", {"count": "instructions", "time": "time"}[kind]]
    head += ["of plain Rust", "of lean plain Rust", "text-book way", "Python", "visits"]
    lines = []
    for call in CALLS:
        visits = results.visits.get((call, day))
        ratios = [results.ratio(kind, "library", way, call, day) for way in ("plain", "lean")]
        ratios += [results.ratio(kind, way, "library", call, day) for way in ("textbook", "python")]
        cost = shown(results.cost(kind, "library", call, day))
        lines.append((title(call), cost, *map(times, ratios), "" if visits is None else str(visits)))
    return rows_of(head, lines)


def size_table(results, kind, head, days):
    """The library's cost on days of several sizes; `days` are their names."""
    lines = [(title(call), *(shown(results.cost(kind, "library", call, day)) for day in days)) for call in CALLS]
    return rows_of(["call", *head], lines)


def sizes(results, kind):
    head = [f"{rows:,} rows" for rows in ROWS]
    parts = ["## Cost against rows", "", "![Cost against rows](rows.svg)", "", "The random day, 256 stops:", ""]
    parts += size_table(results, kind, head, [f"random/{rows}" for rows in ROWS])
    parts += ["The day of lines, 256 stops. A short day of lines has few runs, and its diameter few visits:", ""]
    parts += size_table(results, kind, head, [f"lines/{rows}" for rows in ROWS])
    parts += ["## Cost against stops", "", "The random day, 2,048 rows. With few stops a diameter visits them all:", ""]
    head = [f"{stops} stops" for stops in STOPS]
    return parts + size_table(results, kind, head, [f"random/2048/{stops}" for stops in STOPS])


INTRO = """# How fast the calls are

Written by `bench/run`. It measures

- the library's calls, by their C interface;
- plain Rust: the same algorithms, step by step, in safe Rust with local arrays, the same checks and the same lists;
- lean plain Rust, for three calls: fewer steps to the same answer;
- the text-book way in Rust: a scan of the own rows from every source fills the whole table, and the answer is looked up in
  it; one scan where one source is asked for;
- a straightforward Python script.

Before measuring, all gave equal replies and lists on every day below, and all but Python on 2,000 small days too, many of
them refused.
"""

COUNTED = """An instruction count is that of 2k calls less that of k, over k, so that starting the program does not count. Lists are
set to 0 by ordinary stores when counting, since a counter takes every byte of a repeated string instruction for an
instruction.
"""

EMULATED = """The program ran in an emulator of x86-64, where counts can be taken and times say nothing: no times are given.
"""

COLUMNS = """The library's cost is given over that of plain Rust, below 1 where the library is faster. The costs of the text-book way
and of Python are given over the library's, above 1 where the library is faster. {}
"""


def intro(versions, kinds, native):
    parts = [INTRO]
    if "count" in kinds:
        parts.append(COUNTED)
    if "time" in kinds:
        parts.append("A time is the median of 21 batches of calls.\n")
    if not native:
        parts.append(EMULATED)
    parts.append("Processor: {}. {}, opt-level 3, one codegen unit; {}.\n".format(*versions))
    return parts


def written(results, versions, native):
    kinds = results.kinds()
    parts = intro(versions, kinds, native)
    parts += ["## Bars", "", *bars(results, kinds), *remarks(results, kinds[0])]
    parts += ["## Where the text-book way is faster", ""]
    parts += [f"By {BY[kinds[0]]}; the number is the text-book way's cost over the library's.", ""]
    parts += slower(results, kinds[0])
    python = f"Python is measured on {', '.join(PYTHON_DAYS)} only."
    parts += ["## Each day", "", COLUMNS.format(python)]
    for day, (_, what) in DAYS.items():
        parts += [f"### {day}", "", what[0].upper() + what[1:] + ".", ""]
        for kind in kinds:
            parts += day_table(results, kind, day)
    return "\n".join(parts + sizes(results, kinds[0])).rstrip() + "\n"
