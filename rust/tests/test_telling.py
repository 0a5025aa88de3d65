"""What is told of answers: errors in the lines of the source, and the comparison with rustc. Nothing here is proved."""
import io
import os
import tempfile
import unittest
from contextlib import redirect_stderr
from pathlib import Path

from support import HERE, KEPT, kept_answers

from nlldb_rust import agreement, check_command, links, program, rustc
from nlldb_rust.findings import Conflict
from nlldb_rust.mir import Point
from nlldb_rust.refused import Stopped

CONFLICT = """error: `*numbers` is borrowed mutably while it is borrowed
  --> rust/tests/sources/small.rs:11:5 in `conflict`
   |
10 |     let first = &numbers[0];
   |                  ------- borrowed here
11 |     numbers.push(1);
   |     ^^^^^^^ borrowed mutably here
12 |     *first
   |     ------ the borrow is used here
   = why the borrow goes on:
       10:25 it is passed to `index`, whose result keeps it: `[0]`
       10:17 it is borrowed again, into `first`: `&numbers[0]`
"""


class Telling(unittest.TestCase):
    @classmethod
    def setUpClass(cls):
        cls.found = kept_answers("small")
        cls.lines = "\n".join(check_command.lines_of(cls.found))

    def test_a_conflict_is_told_with_its_chain(self):
        self.assertIn(CONFLICT, self.lines)

    def test_a_lifetime_is_told_by_the_parameters(self):
        self.assertIn("error: the lifetime in the type of `other` has to outlive the lifetime in the type of `_one`", self.lines)

    def test_the_last_line_counts(self):
        self.assertEqual(self.lines.splitlines()[-1], "18 bodies, 18 written, 6 with errors: 6 errors")

    def test_the_object_says_the_same(self):
        it = check_command.object_of(self.found)
        self.assertEqual(it["counts"], {"bodies": 18, "written": 18, "erring": 6, "errors": 6})
        told = next(body for body in it["bodies"] if body["name"] == "conflict")["errors"][0]
        self.assertEqual([mark["line"] for mark in told["marks"]], [11, 10, 12])

    def test_texts_are_kept(self):
        with tempfile.TemporaryDirectory() as folder:
            check_command.keep_texts(self.found, Path(folder))
            self.assertEqual(len(os.listdir(folder)), 16)
            self.assertIn("@put f/0\nclosure ", (Path(folder) / "small.closure.nll").read_text())
            self.assertTrue((Path(folder) / "small.pair.nll").read_text().startswith("@types\nstruct Pair"))

    def test_a_refusal_is_told(self):
        self.assertIn("`many` is not written: limit: parameters > 16", list(check_command.lines_of(kept_answers("refused"))))

    def test_names_of_functions(self):
        self.assertEqual(links.function_name("ConstValue(ZeroSized: fn() {<Vec<i32> as Index<usize>>::index})"), "index")
        self.assertEqual(links.function_name("ConstValue(ZeroSized: fn() {Vec::<i32>::push})"), "push")


class Pages(unittest.TestCase):
    def test_the_readme_has_what_is_printed(self):
        printed = "\n".join(check_command.lines_of(kept_answers("greet")))
        self.assertIn(f"$ rust/nlldb-rust examples/rust/greet.rs\n{printed}\n```", (HERE.parent.parent / "README.md").read_text())

    def test_each_module_says_that_nothing_is_proved(self):
        for path in sorted((HERE.parent / "nlldb_rust").glob("*.py")):
            self.assertRegex(path.read_text().replace("\n", " "), r"[Nn]othing here is proved|proved", path.name)
            self.assertLess(len(path.read_text().splitlines()), 300, path.name)


class Agreement(unittest.TestCase):
    def test_the_functions_agree_with_rustc(self):
        it = agreement.compared(kept_answers("small"))
        self.assertEqual(it.homeless, [])
        self.assertEqual([root.name for root in it.roots if not root.agrees() or not root.agrees_by_line()], [])
        self.assertLessEqual({"functions": 14, "written": 14, "agree": 14, "rejected": 6, "lines": 6, "differ": 0, "faults": 0}.items(), it.counts().items())

    def test_a_false_error_is_a_difference(self):
        found = kept_answers("small")
        found.answers["small.pair"].findings.append(Conflict(0, Point(0, 0), Point(0, 0), ()))
        self.assertEqual(agreement.compared(found).counts()["differ"], 1)


class Stops(unittest.TestCase):
    def stub(self, folder, text):
        path = Path(folder) / "stub"
        path.write_text(f"#!/bin/sh\n{text}\n")
        path.chmod(0o755)
        return str(path)

    def test_another_rustc_is_refused_by_its_version(self):
        with tempfile.TemporaryDirectory() as folder, self.assertRaisesRegex(Stopped, "rustc 1.96.0 was not tested"):
            rustc.require_tested(self.stub(folder, "echo 'rustc 1.96.0 (abc 2027-01-01)'"))

    def test_dumps_of_another_rustc_are_refused(self):
        with tempfile.TemporaryDirectory() as folder, self.assertRaisesRegex(Stopped, "rustc 1.94.0 was not tested"):
            (Path(folder) / "dumps").mkdir()
            (Path(folder) / "rustc-version").write_text("1.94.0\n")
            rustc.kept_run(Path(folder))

    def test_a_program_that_is_not_there(self):
        with self.assertRaisesRegex(Stopped, "cannot run /no/such"):
            program.find_program("/no/such")

    def test_a_program_that_does_not_answer(self):
        with tempfile.TemporaryDirectory() as folder, self.assertRaisesRegex(Stopped, "ended with status 3"):
            program.ask_all(self.stub(folder, "exit 3"), [("", {"f": "fn()->int{bb0{return;}}"})])

    def test_wrong_use_and_a_missing_file(self):
        for words in ([], ["--no-such"], ["x.rs", "--jobs", "x"]):
            with self.subTest(words), self.assertRaisesRegex(Stopped, "wrong use"), redirect_stderr(io.StringIO()):
                check_command.command(words)
        with self.assertRaisesRegex(Stopped, "cannot read /no/such.rs"):
            check_command.command(["/no/such.rs", "--nlldb", "/bin/true"])

    def test_errors_of_rustc_are_sorted(self):
        run = rustc.kept_run(KEPT / "small")
        self.assertEqual(sorted(error.code for error in run.errors), ["", "", "", "E0502", "E0502", "E0597"])
        self.assertTrue(all(error.is_of_borrows() for error in run.errors))
        self.assertTrue((HERE / "sources" / "small.rs").is_file())


if __name__ == "__main__":
    unittest.main()
