"""The written texts, and the parts that write them. Nothing here is proved."""
import unittest

from support import KEPT, kept_texts

from nlldb_rust import graphs
from nlldb_rust.body import Options
from nlldb_rust.crate import write_crate


def written(name, options=Options(), jobs=1):
    bodies = write_crate(KEPT / name / "dumps", KEPT / name / "facts", options, jobs)
    return {body.name: body for body in bodies}


class Texts(unittest.TestCase):
    def test_each_text_is_the_one_that_is_kept(self):
        for source in sorted(path.name for path in KEPT.iterdir()):
            for name, body in written(source).items():
                kept = kept_texts(source)[name]
                with self.subTest(name):
                    self.assertEqual(body.refused, kept.get("refused", ""))
                    if body.text:
                        self.assertEqual(body.text.types.splitlines(), kept["types"])
                        self.assertEqual(body.text.unit.splitlines(), kept["unit"])

    def test_several_processes_write_the_same(self):
        one, two = written("small"), written("small", jobs=2)
        self.assertEqual([(name, body.text.unit) for name, body in one.items()], [(name, body.text.unit) for name, body in two.items()])

    def test_each_point_has_one_of_rustc(self):
        for body in written("small").values():
            count = sum(line.strip().endswith(";") and not line.strip().startswith("let") for line in body.text.unit.splitlines())
            self.assertEqual(sum(len(block) for block in body.text.points), count)
            self.assertEqual(body.text.sizes["points"], count)

    def test_a_two_phase_borrow_is_reserved_and_then_made(self):
        lines = [line.strip() for line in written("small")["small.two_phase"].text.unit.splitlines()]
        reserved = next(number for number, line in enumerate(lines) if " = &" in line and " mut " not in line)
        made = next(number for number, line in enumerate(lines) if " = &" in line and " mut " in line and number > reserved)
        self.assertRegex(lines[made - 1], r"^(_\d+) = copy \1;$")

    def test_it_is_written_naively_where_that_is_asked(self):
        body = written("small", Options(naive_two_phase=True))["small.two_phase"]
        self.assertGreater(written("small")["small.two_phase"].text.sizes["points"], body.text.sizes["points"])

    def test_unwinding_adds_blocks(self):
        plain, unwound = written("small")["small.dropped"], written("small", Options(unwind=True))["small.dropped"]
        self.assertGreater(unwound.text.sizes["blocks"], plain.text.sizes["blocks"])

    def test_a_refusal_has_its_reason(self):
        self.assertEqual(written("refused")["refused.many"].refused, "limit: parameters > 16")


class Closures(unittest.TestCase):
    def test_one_that_is_only_called_is_written_as_a_closure(self):
        bodies = written("small")
        self.assertEqual(bodies["small.closure-{closure#0}"].within, ("small.closure", 0))
        self.assertTrue(bodies["small.closure-{closure#0}"].text.unit.startswith("closure <"))
        self.assertRegex(bodies["small.closure"].text.unit, r"_(\d+) = closure 0<'\?\d+>\(move _\d+\);")
        self.assertRegex(bodies["small.closure"].text.unit, r"_0 = invoke _\d+<'\?\d+>\(move _\d+\.0\) bb\d+;")

    def test_what_it_requires_is_no_clause_of_it(self):
        it = written("small")["small.assigns-{closure#0}"]
        self.assertEqual(it.within, ("small.assigns", 0))
        self.assertEqual(len(it.plain.requirements), 1)
        self.assertEqual(it.dump.requirements, [])
        errors = kept_texts("small")["small.assigns"]["answer"]["outcome"]["bodies"]
        self.assertEqual([[error["kind"] for error in body["errors"]] for body in errors], [["lifetime"], []])

    def test_one_that_is_passed_on_is_written_as_a_function(self):
        bodies = written("small")
        for name in ("passed_on", "requires"):
            self.assertIsNone(bodies[f"small.{name}-{{closure#0}}"].within)
            self.assertTrue(bodies[f"small.{name}-{{closure#0}}"].text.unit.startswith("fn <"))


class Graphs(unittest.TestCase):
    def test_components(self):
        found = graphs.strong_components(graphs.successors_of([(1, 2), (2, 3), (3, 1), (3, 4)]))
        self.assertEqual(sorted(sorted(it) for it in found), [[1, 2, 3], [4]])

    def test_detours_are_left_out(self):
        self.assertEqual(graphs.without_detours([(1, 2), (2, 3), (1, 3)]), [(1, 2), (2, 3)])


if __name__ == "__main__":
    unittest.main()
