import unittest

from ..schedule import FIRST_RATE, SPEED, Plan, rate_seen, seconds_left, told

# Two low crates, a long and a short way up, and one on top of both.
BELOW = {"base": [], "side": [], "long": ["base"], "short": ["base"], "top": ["long", "short", "side"]}
COSTS = {"base": 100, "side": 50, "long": 400, "short": 100, "top": 200}


def plan(lanes):
    return Plan(BELOW, COSTS, lanes)


class Order(unittest.TestCase):
    def test_the_longest_way_up_comes_first(self):
        self.assertEqual(plan(2).ready(), ["base", "side"])

    def test_each_that_is_ready_has_a_process_and_the_first_has_what_is_left(self):
        self.assertEqual(plan(4).start(), {"base": 3, "side": 1})
        self.assertEqual(plan(1).start(), {"base": 1})

    def test_with_more_room_the_longest_way_up_has_all_lanes(self):
        it = Plan({**BELOW, "other": []}, {**COSTS, "other": 10}, 4, room=6)
        self.assertEqual(it.start(), {"base": 4, "side": 1, "other": 1})
        self.assertEqual([name for name in it.running if it.is_urgent(name)], ["base"])
        it.end("base")
        self.assertEqual(it.start(), {"long": 4})
        it.end("side")
        self.assertEqual(it.start(), {"short": 1})

    def test_half_of_the_processes_are_for_the_longest_way_up(self):
        many = {"base": [], "top": ["base"], "one": [], "two": [], "three": []}
        it = Plan(many, {"base": 100, "top": 100, "one": 30, "two": 20, "three": 10}, 4)
        self.assertEqual(it.start(), {"base": 2, "one": 1, "two": 1})
        it.end("one")
        self.assertEqual(it.start(), {"three": 1})

    def test_a_way_up_that_is_nearly_the_longest_is_urgent_too(self):
        near = {"one": [], "other": [], "top": ["one", "other"]}
        it = Plan(near, {"one": 100, "other": 95, "top": 100}, 4, room=7)
        self.assertEqual(it.start(), {"one": 4, "other": 3})
        self.assertTrue(it.is_urgent("other"))

    def test_a_dear_crate_that_may_wait_has_two_processes(self):
        wide = {"low": [], "page": [], "small": [], "top": ["low", "page", "small"]}
        it = Plan(wide, {"low": 300, "page": 150, "small": 20, "top": 100}, 4, room=7)
        self.assertEqual(it.start(), {"low": 4, "page": 2, "small": 1})
        self.assertFalse(it.is_urgent("page"))

    def test_no_crate_starts_before_what_it_stands_on_is_proved(self):
        it = plan(4)
        it.start()
        self.assertEqual(it.start(), {})
        it.end("base")
        self.assertEqual(it.start(), {"long": 2, "short": 1})

    def test_what_is_proved_is_not_started(self):
        it = Plan(BELOW, COSTS, 4, {"base", "long"})
        self.assertEqual(it.start(), {"short": 3, "side": 1})


class Time(unittest.TestCase):
    def test_crates_in_turn_take_what_they_cost(self):
        self.assertAlmostEqual(seconds_left(plan(1), {}, 10), 85)

    def test_the_way_up_is_what_crates_in_parallel_take(self):
        two = Plan({"one": [], "other": [], "top": ["one", "other"]}, {"one": 100, "other": 40, "top": 100}, 2)
        self.assertAlmostEqual(seconds_left(two, {}, 10), 10 + 10 / SPEED[2])

    def test_what_was_done_of_a_crate_is_taken_off(self):
        one = Plan({"one": []}, {"one": 100}, 1)
        one.start()
        self.assertAlmostEqual(seconds_left(one, {"one": 4}, 10), 6)
        self.assertAlmostEqual(seconds_left(one, {"one": 40}, 10), 1)

    def test_nothing_is_left_where_all_is_proved(self):
        self.assertEqual(seconds_left(Plan(BELOW, COSTS, 2, {*BELOW}), {}, 10), 0)

    def test_the_rate_goes_by_what_was_seen(self):
        self.assertAlmostEqual(rate_seen([]), FIRST_RATE)
        self.assertLess(rate_seen([(6000, 600, 1)]), FIRST_RATE / 1.5)
        self.assertGreater(rate_seen([(6000, 100, 1)]), FIRST_RATE)

    def test_what_was_proved_before_says_nothing_of_the_rate(self):
        self.assertEqual(rate_seen([(6000, 100, 1), (6000, 2, 1)]), rate_seen([(6000, 100, 1)]))


class Words(unittest.TestCase):
    def test_the_line(self):
        self.assertEqual(told(6, 23, 18 * 60 + 10), "crate 7 of 23, about 18 minutes left")
        self.assertEqual(told(22, 23, 70), "crate 23 of 23, about a minute left")
        self.assertEqual(told(23, 23, 0), "crate 23 of 23, less than a minute left")


if __name__ == "__main__":
    unittest.main()
