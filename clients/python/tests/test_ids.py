"""Ids ascend."""

import threading
import time
import unittest
from unittest import mock

from cegarront import MAX_128, ids, new_id


class Ids(unittest.TestCase):
    def test_each_is_above_all_before_it(self):
        drawn = [new_id() for _ in range(10_000)]
        self.assertEqual(drawn, sorted(set(drawn)))

    def test_they_are_ids_of_this_moment(self):
        before = time.time_ns() // 1_000_000
        drawn = new_id()
        after = time.time_ns() // 1_000_000
        self.assertTrue(0 < drawn < MAX_128)
        # Ids of the same millisecond may have gone a little ahead of the clock.
        self.assertTrue(before <= drawn >> 80 <= after + 1)

    def test_a_clock_that_goes_back(self):
        first = new_id()
        with mock.patch.object(ids.time, "time_ns", return_value=10**18):
            drawn = [new_id() for _ in range(1000)]
        self.assertEqual([first, *drawn], sorted({first, *drawn}))
        self.assertLess((drawn[-1] - first) >> 80, 2)

    def test_processes_that_were_forked_do_not_draw_equal_ids(self):
        """From one last id, with the same clock."""
        draws = []
        for _ in range(2):
            with mock.patch.object(ids, "_last", 2**127):
                draws.append({new_id() for _ in range(100)})
        self.assertFalse(draws[0] & draws[1])

    def test_threads(self):
        drawn = []

        def draw():
            drawn.extend([new_id() for _ in range(1000)])
        threads = [threading.Thread(target=draw) for _ in range(8)]
        for each in threads:
            each.start()
        for each in threads:
            each.join()
        self.assertEqual(len(set(drawn)), 8000)


if __name__ == "__main__":
    unittest.main()
