"""Tests of `real_bodies.py` of the benchmarks: the files that `rust/nlldb-rust FILE --keep DIR` leaves come apart into their units."""
import json
import os
import sys
import tempfile
import unittest
from pathlib import Path

ROOT = Path(os.path.realpath(__file__)).parent.parent.parent
sys.path[:0] = [str(ROOT / ".ci/benchmarks"), str(ROOT / "rust/tests")]
import real_bodies
import support
from nlldb_rust.check_command import keep_texts


class RealBodies(unittest.TestCase):
    @classmethod
    def setUpClass(cls):
        found = support.kept_answers("small")
        cls.bodies = {body.name: body for body in found.bodies}
        with tempfile.TemporaryDirectory() as room:
            keep_texts(found, Path(room))
            cls.parts = {path.stem: real_bodies.parts_of(path) for path in Path(room).iterdir()}

    def test_a_closure_is_a_unit_of_its_own(self):
        function, closure = (self.bodies[name].text for name in ("small.closure", "small.closure-{closure#0}"))
        self.assertEqual(self.parts["small.closure"], (function.types, {"f": function.unit, "f/0": closure.unit}))

    def test_a_body_without_closures_is_one_unit(self):
        text = self.bodies["small.two_phase"].text
        self.assertEqual(self.parts["small.two_phase"], (text.types, {"f": text.unit}))

    def test_the_files_have_all_written_bodies(self):
        units = [unit for _, units in self.parts.values() for unit in units.values()]
        self.assertEqual(sorted(units), sorted(body.text.unit for body in self.bodies.values() if body.text))

    def test_each_unit_is_put_under_its_own_name_and_the_body_is_asked_for(self):
        types, units = self.parts["small.closure"]
        came = [json.loads(line) for line in real_bodies.requests([(types, units), (types, {"f": units["f"]})])]
        self.assertEqual([it["call"] for it in came], ["types", "put", "put", "ask", "types", "put", "ask"])
        self.assertEqual([it.get("name") for it in came[:4]], [None, "f", "f/0", "f"])
        self.assertEqual([it.get("text") for it in came[:4]], [types, units["f"], units["f/0"], None])

    def test_sizes_are_those_of_the_writer(self):
        for stem, (_, units) in self.parts.items():
            sizes, text = real_bodies.Sizes(units["f"]), self.bodies[stem].text
            with self.subTest(stem):
                self.assertEqual((sizes.points, sizes.loans, sizes.regions), tuple(text.sizes[it] for it in ("points", "loans", "regions")))

    def test_the_longest_file_is_by_the_points_of_all_its_units(self):
        self.assertEqual(list(real_bodies.longest(["a", "b"], [7, 3])), [("median", 7, "a"), ("99 of 100", 7, "a"), ("the longest", 7, "a")])
