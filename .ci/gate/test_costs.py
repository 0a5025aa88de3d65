"""Tests of `costs.py`: what the page allows, and what is wrong with what crates took."""
import os
import tempfile
import unittest

import costs


class Costs(unittest.TestCase):
    def test_the_page_has_a_budget_and_lists_crates_that_there_are(self):
        crates, functions, budget = costs.allowed()
        self.assertTrue(budget)
        self.assertTrue(crates)
        there = os.listdir(f"{costs.ROOT}/crates")
        self.assertEqual([it for it in [*crates, *(it.partition("::")[0] for it in functions)] if it not in there], [])

    def test_what_is_listed_may_take_more_and_what_is_not_may_take_as_much_as_the_dearest(self):
        listed = {"a": 3.0, "b": 1.0}
        self.assertEqual(costs.wrong_of({"a": 900.0, "b": 500.0, "c": 300.0}, listed, 100, []), [])
        self.assertEqual(len(costs.wrong_of({"a": 900.0, "c": 301.0}, listed, 100, ["b"])), 1)

    def test_what_a_design_note_explains_may_take_more(self):
        self.assertEqual(costs.wrong_of({"c": 301.0}, {"a": 3.0}, 100, ["c"]), [])

    def test_without_a_unit_or_a_list_nothing_is_compared(self):
        self.assertEqual(costs.wrong_of({"c": 900.0}, {"a": 3.0}, 0, []), [])
        self.assertEqual(costs.wrong_of({"c": 900.0}, {}, 100, []), [])

    def test_the_unit_is_a_proof_and_not_what_looks_at_it(self):
        self.assertEqual(costs.unit_of({"bc_flow": {"libraries": 169.0}}), 169.0)
        self.assertEqual(costs.unit_of({"bc_flow": {"libraries": 0.4, "wrong bodies": 90.0}}), 0)
        self.assertEqual(costs.unit_of({}), 0)

    def test_functions_share_what_their_check_took_of_a_processor(self):
        with tempfile.TemporaryDirectory() as room:
            for name, time in (("Rattle-std-specs.Prelude", 0), ("Rattle-c-proofs.m.f.Proof", 6), ("Rattle-c-proofs.m.f.Met", 8), ("Rattle-c-proofs.g.Proof", 10)):
                with open(f"{room}/{name}.oantt", "w", encoding="utf-8"):
                    pass
                os.utime(f"{room}/{name}.oantt", (time, time))
            self.assertEqual(costs.of_functions(room, "c", 5.0), {"c::m::f": 4.0, "c::g": 1.0})


if __name__ == "__main__":
    unittest.main()
