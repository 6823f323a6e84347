"""Document 01's figures of day D through the wrapper, its limits and refusals, and the numbers that it does not take."""

import pathlib
import threading
import unittest

import figures
from example import DAY_D
from figures import Done, Nothing, Refused, Rows, Value

PUBLIC = (DAY_D, 5, 0, 100, 300)
OWNER_9 = (DAY_D, 5, 9, 100, 300)
REFUSALS = pathlib.Path(__file__).resolve().parent.parent / "refusals.out"


class DayD(unittest.TestCase):
    def test_distances(self):
        self.assertEqual(figures.distances_from(*PUBLIC, 2), Done([None, None, 0, 60, 105]))
        self.assertEqual(figures.distances_to(*OWNER_9, 4), Done([35, 35, 105, 105, 0]))
        self.assertEqual(figures.distances_to(*OWNER_9, 5), Refused(7, 0))

    def test_table_has_a_list_for_each_source(self):
        rows = figures.table(*PUBLIC).distances
        self.assertEqual([len(row) for row in rows], [5] * 5)
        self.assertEqual(rows[0], [0, 20, 50, 90, 105])
        self.assertEqual(rows[4], [None, None, None, None, 0])

    def test_eccentricities(self):
        self.assertEqual(figures.forward_eccentricity(*OWNER_9, 0), Value(90))
        self.assertEqual(figures.forward_eccentricity(*PUBLIC, 4), Nothing())
        self.assertEqual(figures.backward_eccentricity(*PUBLIC, 4), Value(105))

    def test_diameters(self):
        self.assertEqual(figures.diameter(*OWNER_9), Value(105, 2, 4, 1))
        self.assertEqual(figures.pivot_diameter(*PUBLIC, [3, 250, 2, 150]), Value(105, 0, 4, 2))
        self.assertEqual(figures.pivot_diameter(*PUBLIC, []), Nothing(0))
        self.assertEqual(figures.pivot_diameter(*PUBLIC, [0, 100, 0]), Refused(8, 0))

    def test_office_check(self):
        self.assertEqual(figures.office_check(DAY_D, 5), Rows(7))
        self.assertEqual(figures.office_check([], 5), Rows(0))
        self.assertEqual(figures.office_check([0, 1, 259199, 1, 256], 2), Refused(11, 0))

    def test_threads_ask_at_once(self):
        answers = []
        asks = (PUBLIC, Value(105, 0, 4, 1)), (OWNER_9, Value(105, 2, 4, 1))

        def ask_often(ask, answer):
            answers.extend(figures.diameter(*ask) == answer for _ in range(50))

        threads = [threading.Thread(target=ask_often, args=pair) for pair in asks * 3]
        for thread in threads:
            thread.start()
        for thread in threads:
            thread.join()
        self.assertEqual(answers, [True] * 300)


class Limits(unittest.TestCase):
    """256 stops, 2,048 rows and 16 pivots. The rows go from each stop to the next, again and again, 10 seconds each."""

    LIST = [number for i in range(2048) for number in (i % 255, i % 255 + 1, 10 * i, 10, 0)]
    FULL = (LIST, 256, 255, 0, 259200)

    def distance(self, u, v):
        return 10 * v if u < v else 0 if u == v else None

    def test_lists(self):
        stops = range(256)
        self.assertEqual(figures.distances_from(*self.FULL, 0), Done([self.distance(0, v) for v in stops]))
        self.assertEqual(figures.distances_to(*self.FULL, 255), Done([self.distance(u, 255) for u in stops]))
        self.assertEqual(figures.table(*self.FULL), Done([[self.distance(u, v) for v in stops] for u in stops]))

    def test_figures(self):
        pivots = [number for i in range(16) for number in (16 * i, 160 * i)]
        self.assertEqual(figures.forward_eccentricity(*self.FULL, 0), Value(2550))
        self.assertEqual(figures.backward_eccentricity(*self.FULL, 255), Value(2550))
        self.assertEqual(figures.diameter(*self.FULL), Value(2550, 0, 255, 255))
        self.assertEqual(figures.pivot_diameter(*self.FULL, pivots), Value(2550, 0, 255, 1))
        self.assertEqual(figures.pivot_diameter(*self.FULL, pivots + [0, 0]), Refused(8, 0))
        self.assertEqual(figures.office_check(self.LIST, 256), Rows(2048))

    def test_one_stop_more(self):
        more = (self.LIST, 257, *self.FULL[2:])
        for call in figures.distances_from, figures.distances_to, figures.forward_eccentricity, figures.backward_eccentricity:
            self.assertEqual(call(*more, 0), Refused(3, 0))
        for call in figures.table, figures.diameter:
            self.assertEqual(call(*more), Refused(3, 0))
        self.assertEqual(figures.pivot_diameter(*more, []), Refused(3, 0))
        self.assertEqual(figures.office_check(self.LIST, 257), Refused(3, 0))


def short_of_room():
    """No call of the wrapper lends too little room, so this goes below it."""
    return figures._filled(figures._reply("figures_table", *figures._ask(*PUBLIC), *figures._room(24)), None)


class Refusals(unittest.TestCase):
    def test_each_number_has_its_sentence_and_place(self):
        overowned = [256 if i == 14 else number for i, number in enumerate(DAY_D)]
        refusals = [
            figures.distances_from(DAY_D[:34], 5, 0, 100, 300, 0),
            figures.diameter([0] * 10245, 5, 0, 100, 300),
            figures.table(DAY_D, 257, 0, 100, 300),
            figures.forward_eccentricity(DAY_D, 5, 256, 100, 300, 0),
            figures.diameter(DAY_D, 5, 0, 100, 99),
            figures.forward_eccentricity(DAY_D, 4, 0, 100, 300, 0),
            figures.backward_eccentricity(*PUBLIC, 5),
            figures.pivot_diameter(*PUBLIC, [2, 150, 2]),
            figures.pivot_diameter(*PUBLIC, [2, 100, 2, 300, 5, 150]),
            short_of_room(),
            figures.office_check(overowned, 5),
        ]
        self.assertEqual([str(refusal) for refusal in refusals], REFUSALS.read_text(encoding="utf-8").splitlines())
        self.assertEqual(str(Refused(12, 0)), "refused 12: a joined pair without a route")

    def test_each_half_of_a_condition_is_refused(self):
        self.assertEqual(figures.diameter(DAY_D, 0, 0, 100, 300), Refused(3, 0))
        self.assertEqual(figures.diameter(DAY_D, 5, 0, 100, 259201), Refused(5, 0))
        self.assertEqual(figures.pivot_diameter(*PUBLIC, [2, 150] * 17), Refused(8, 0))
        self.assertEqual(figures.pivot_diameter(*PUBLIC, [2, 100, 2, 99]), Refused(9, 1))
        self.assertEqual(figures.pivot_diameter(*PUBLIC, [2, 301]), Refused(9, 0))

    def test_each_call_tells_the_place(self):
        few = (DAY_D, 4, 9, 100, 300)
        for call in figures.distances_from, figures.distances_to, figures.forward_eccentricity, figures.backward_eccentricity:
            self.assertEqual(call(*few, 0), Refused(6, 2))
        for call in figures.table, figures.diameter:
            self.assertEqual(call(*few), Refused(6, 2))
        self.assertEqual(figures.pivot_diameter(*few, []), Refused(6, 2))
        self.assertEqual(figures.diameter(DAY_D, 4, 7, 100, 300), Refused(6, 5))
        self.assertEqual(figures.office_check(DAY_D, 4), Refused(6, 3))


class Library(unittest.TestCase):
    def test_a_library_that_is_named(self):
        with self.assertRaisesRegex(FileNotFoundError, "^/missing.so is missing: run tools/library, "):
            figures.load("/missing.so")


class Numbers(unittest.TestCase):
    def test_limits_are_the_library_s(self):
        self.assertEqual(figures.table(DAY_D, 4294967295, 0, 100, 300), Refused(3, 0))
        self.assertEqual(figures.office_check([0] * 20000, 5), Refused(2, 0))

    def test_other_numbers_are_named(self):
        with self.assertRaisesRegex(ValueError, r"^list\[1\] is -1: it must be a whole number from 0 to 4,294,967,295$"):
            figures.office_check([0, -1], 5)
        with self.assertRaisesRegex(ValueError, "^w is 4294967296: "):
            figures.diameter(DAY_D, 5, 0, 100, 4294967296)
        with self.assertRaisesRegex(ValueError, "^source is 1.5: "):
            figures.distances_from(*PUBLIC, 1.5)


if __name__ == "__main__":
    unittest.main()
