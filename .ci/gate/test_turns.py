"""Tests of `turns.py`, with clocks that no one waits for."""
import unittest

from turns import TURNS, Schedule, Task, order_of, turns_of, weight_of

MINUTE = 60


def run(tasks, speed, proofs, limit=140 * MINUTE, lanes=2, after=4, slowness=3.0):
    """Plays a gate: each crate is proved at its time in `proofs`, a weight of 1 takes `speed` seconds of a processor, and by the clock `slowness` times as
    much while anything is left to be proved. Gives the schedule, and when each task began and ended."""
    schedule, now, told, running, log = Schedule(tasks, limit, lanes), 0.0, dict(proofs), {}, []
    end = max(proofs.values(), default=0)
    while True:
        for name in [it for it, at in told.items() if at <= now]:
            schedule.tell(name)
            del told[name]
        if now >= end and not schedule.is_ended:
            schedule.tell_end(after)
        for task in [it for it, at in running.items() if at <= now]:
            schedule.ended(task, running.pop(task), task.weight * speed)
        while task := schedule.next(now):
            took = task.weight * speed * (1 if schedule.is_ended else slowness)
            running[task] = now + took
            log.append((task.name, task.is_whole, now, now + took))
        if schedule.is_over() and not running:
            return schedule, log
        now = min([*told.values(), *running.values(), *([end] if end > now else [])], default=now + 1)


def crates(count, proved, listed=2, whole=100):
    """Tasks of a gate: of each crate the listed edits, and of every fourth all of them; and when each crate is proved."""
    tasks = []
    for at in range(count):
        is_whole = at % 4 == 3
        tasks.append(Task(f"c{at}", whole if is_whole else listed, is_whole, listed, True, frozenset({f"c{it}" for it in range(at)})))
    return tasks, {f"c{at}": proved * (at + 1) / count for at in range(count)}


class Turns(unittest.TestCase):
    def test_a_dozen_turns_have_each_crate_once_and_take_as_long_as_each_other(self):
        weights = {f"c{at}": 20 + 7 * (at * at % 31) for at in range(60)}
        turns = turns_of(weights)
        self.assertEqual(sorted(it for turn in turns for it in turn), sorted(weights))
        takes = [sum(weights[it] for it in turn) for turn in turns]
        self.assertLess(max(takes) - min(takes), 0.2 * max(takes))

    def test_a_dozen_commits_in_a_row_try_every_crate(self):
        weights = {f"c{at}": 10 + at for at in range(40)}
        self.assertEqual({it for count in range(700, 700 + TURNS) for it in order_of(weights, count, [])}, set(weights))

    def test_what_was_left_comes_first_in_the_next_turn_and_once(self):
        weights = {f"c{at}": 10 + at for at in range(40)}
        turn = order_of(weights, 7, [])
        other = next(it for it in weights if it not in turn)
        self.assertEqual(order_of(weights, 7, [other, turn[-1], "gone"]), [other, turn[-1], *turn[:-1]])

    def test_a_crate_with_more_edits_or_more_libraries_takes_longer(self):
        self.assertEqual(weight_of(0, 10, True), 0)
        self.assertLess(weight_of(5, 10, True), weight_of(6, 10, True))
        self.assertLess(weight_of(5, 10, False), weight_of(5, 11, False))


class Schedules(unittest.TestCase):
    def test_a_quick_run_leaves_nothing(self):
        tasks, proofs = crates(40, 60 * MINUTE)
        schedule, log = run(tasks, 1.0, proofs)
        self.assertEqual((schedule.left, len(log)), ([], 40))

    def test_a_slow_run_ends_in_time_and_tries_each_listed_edit(self):
        for speed in (12.0, 24.0, 48.0):
            tasks, proofs = crates(40, 125 * MINUTE)
            schedule, log = run(tasks, speed, proofs)
            self.assertTrue(schedule.left)
            self.assertEqual(sorted({name for name, *_ in log}), sorted(f"c{at}" for at in range(40)))
            self.assertEqual(len(log), 40)
            self.assertLessEqual(max(end for *_, end in log), 140 * MINUTE)

    def test_nothing_of_the_turn_begins_after_the_end_and_the_listed_edits_do(self):
        tasks, proofs = crates(12, 160 * MINUTE)
        schedule, log = run(tasks, 16.0, proofs)
        late = [is_whole for _, is_whole, began, _ in log if began > 140 * MINUTE]
        self.assertTrue(late)
        self.assertFalse(any(late))
        self.assertIn("c11", schedule.left)

    def test_listed_edits_come_first(self):
        tasks = [Task("whole", 50, True), *(Task(f"listed{at}", 2) for at in range(6))]
        _, log = run(tasks, 1.0, {}, lanes=1, after=1)
        self.assertEqual([is_whole for _, is_whole, *_ in log], [False] * 6 + [True])

    def test_a_smaller_crate_takes_the_place_of_one_that_does_not_end_in_time(self):
        tasks = [Task("listed", 10), Task("large", 500, True, 1.0, True), Task("small", 20, True, 1.0, True)]
        schedule, log = run(tasks, 1.0, {}, limit=100, lanes=1, after=1)
        self.assertEqual(schedule.left, ["large"])
        self.assertIn(("small", True), [it[:2] for it in log])
        self.assertIn(("large", False), [it[:2] for it in log])

    def test_before_anything_is_measured_a_turn_begins_early_alone(self):
        self.assertEqual(run([Task("whole", 50, True)], 1.0, {}, limit=1000)[0].left, [])
        schedule = Schedule([Task("whole", 50, True)], 1000, 1)
        schedule.tell_end(1)
        self.assertIsNone(schedule.next(900.0))
        self.assertEqual(schedule.left, ["whole"])

    def test_what_earlier_runs_refused_takes_nothing_and_is_never_left(self):
        tasks = [Task("listed", 10), Task("kept", 0.0, True)]
        self.assertEqual(run(tasks, 1.0, {"other": 150 * MINUTE})[0].left, [])

    def test_beside_the_proofs_a_crate_waits_that_would_take_too_long_there(self):
        tasks = [Task("first", 10), Task("whole", 100, True, 1.0)]
        schedule, log = run(tasks, 10.0, {"last": 120 * MINUTE}, limit=140 * MINUTE, lanes=1, slowness=9.0)
        self.assertEqual(schedule.left, [])
        self.assertEqual([began for name, is_whole, began, _ in log if is_whole], [120 * MINUTE])


if __name__ == "__main__":
    unittest.main()
