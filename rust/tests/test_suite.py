"""What is kept of rustc's dumps, how the suite's sources are marked, and the tables of figures."""
import tempfile
import unittest
from pathlib import Path

import support
from nlldb_rust import kept, suite, tables
from nlldb_rust.rustc import Diagnostic, errors_in
from nlldb_rust.spans import Position

DUMP = """| Free Region Mapping
| '?0 | Global | ['?0, '?1]
| Inferred Region Values
| '?0 | U0 | {bb0[0..=2], '?0}
| '?2 live at {bb0[1]}
| '?1: '?2 due to Boring at Single(bb0[1]) (/rustc/5980/library/alloc/src/vec/mod.rs:1:2: 1:9 (#0)
    let mut _0: ();                      // return place in scope 0 at a.rs:1:1: 1:2
        _0 = const ();                   // bb0[0]: scope 0 at a.rs:1:1: 1:2
                                         // mir::ConstOperand"""
SPAN = '{"file_name":"a.rs","line_start":3,"line_end":3,"column_start":5,"column_end":9,"is_primary":true,"label":"here","text":[{"text":"long"}]}'
ERROR = '{"message":"no","level":"error","code":{"code":"E0499","explanation":"long"},"spans":[%s],"rendered":"long"}'


class Kept(unittest.TestCase):
    def test_a_dump_keeps_what_is_read(self):
        lines = kept.kept_dump(DUMP).split("\n")
        self.assertEqual(len(lines), 6)
        self.assertIn("(/rust/library/alloc/src/vec/mod.rs:1:2: 1:9 (#0)", lines[3])
        self.assertTrue(lines[5].lstrip().startswith("_0 = const ()"))

    def test_an_error_keeps_its_code_and_places(self):
        said = "\n".join([ERROR % SPAN, '{"message":"unused","level":"warning","spans":[]}', "no JSON"])
        text = kept.kept_errors(said)
        self.assertNotIn("long", text)
        self.assertEqual([(it.code, it.primary) for it in errors_in(text)], [("E0499", (Position("a.rs", 3, 5, 3, 9),))])

    def test_a_place_in_a_macro_keeps_where_that_is_called(self):
        inner = SPAN.replace("a.rs", "/at/library/alloc/src/macros.rs")[:-1] + ',"expansion":{"span":' + SPAN.replace(":3,", ":7,") + "}}"
        self.assertIn('"/rust/library/alloc/src/macros.rs"', kept.kept_errors(ERROR % inner))
        self.assertEqual(errors_in(kept.kept_errors(ERROR % inner))[0].primary[0].line, 7)

    def test_an_archive_has_its_files_and_the_same_bytes_each_time(self):
        files = {"made.json": b'{"edition": "2021", "rustc": "1.0", "source": "ab"}', "dumps/" + "a" * 120: b"one", "errors.json": b""}
        with tempfile.TemporaryDirectory() as at:
            one, other = Path(at, "one"), Path(at, "other")
            kept.pack(files, one)
            kept.pack(files, other)
            self.assertEqual(one.read_bytes(), other.read_bytes())
            self.assertEqual(kept.unpacked(one), files)
            self.assertEqual(kept.unpacked(Path(at, "none")), {})
        self.assertEqual(kept.made_of(files), kept.Made("1.0", "2021", "ab"))
        self.assertIsNone(kept.made_of({}))


class Marks(unittest.TestCase):
    def test_a_mark_is_of_its_line_or_of_one_above(self):
        source = "first //~ E0499\nif second {\n    //~^ E0503\n}\nthird //~ lifetime\n// E0505\n"
        self.assertEqual(suite.marks_of(source), {(1, "E0499"), (2, "E0503"), (5, "lifetime")})

    def test_each_mark_of_the_suite_is_an_error_that_is_compared(self):
        sources = sorted((support.HERE.parent / "suite").glob("*.rs"))
        marks = [(path.name, line, code) for path in sources for line, code in sorted(suite.marks_of(path.read_text()))]
        self.assertTrue(marks)
        self.assertEqual([it for it in marks if it[2] != "lifetime" and not Diagnostic(it[2], "", (), "").is_of_borrows()], [])

    def test_a_hidden_lifetime_that_is_captured_is_not_compared(self):
        self.assertFalse(Diagnostic("E0700", "hidden type captures lifetime", (), "").is_of_borrows())

    def test_errors_are_told_by_line_and_code(self):
        errors = [Diagnostic("E0499", "", (Position("a.rs", 3, 5, 3, 9),), ""), Diagnostic("", "", (Position("a.rs", 8, 1, 8, 2),), "")]
        self.assertEqual(suite.reported(errors), {(3, "E0499"), (8, "lifetime")})


class Tables(unittest.TestCase):
    CRATE = {"name": "a", "version": "1", "counts": {"functions": 3, "written": 2, "agree": 2}, "bodies": 4, "refused": {"union": 1}, "differing": [],
             "sizes": [{"points": at} for at in range(1, 101)], "noted_bodies": {"call": 2}, "notes": {"call": 5}, "seconds": {"rustc": 0.25}}  # fmt: skip

    def test_each_table_has_its_rows(self):
        text = "\n".join(tables.tables([self.CRATE]))
        rows = ("| a 1 | 3 | 2 | 2 | 4 | 0.2 |", "| **1 crates** | 3 |", "| `union` | 1 |", "| points | 51 | 100 | 100 | 4096 |", "| call | 2 | 5 |")
        for row in (*rows, "0 functions differ"):
            self.assertIn(row, text)


if __name__ == "__main__":
    unittest.main()
