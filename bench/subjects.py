"""What is measured: the calls, the days and the sizes."""
CALLS = (
    "distances_from",
    "distances_to",
    "table",
    "forward_eccentricity",
    "backward_eccentricity",
    "diameter",
    "pivot_diameter_1",
    "pivot_diameter_16",
    "office_check",
)
SEARCHES = ("diameter", "pivot_diameter_1", "pivot_diameter_16")

WAYS = ("library", "plain", "textbook")

# The calls that have a bar against plain Rust, and are written a second time in fewer steps.
LEAN_CALLS = ("distances_from", "table", "distances_to")

# Each day with its number of stops and what it is like. All have 2,048 rows.
DAYS = {
    "random": (256, "rows between any two of 256 stops at any time; the whole day is asked for"),
    "lines": (256, "17 bus lines of 16 stops that meet at one stop, run after run; the whole day"),
    "dense-16": (16, "like random, between 16 stops"),
    "dense-5": (5, "like random, between 5 stops"),
    "chain": (3, "rides of half a day into a stop with many departures: the worst day for links"),
    "tenth": (256, "like random, and the asker sees a tenth of the rows"),
    "random-hour": (256, "the random day, from eight to nine in the morning"),
    "lines-hour": (256, "the day of lines, from eight to nine in the morning"),
}

# Python is slow to count, so it is measured on these days only.
PYTHON_DAYS = ("random", "lines", "dense-5", "random-hour")

ROWS = (128, 256, 512, 1024, 2048)
STOPS = (16, 64, 256)


def title(call):
    """A call's name in the tables."""
    names = {"pivot_diameter_1": "pivot_diameter, 1 pivot", "pivot_diameter_16": "pivot_diameter, 16 pivots"}
    return names.get(call, call)
