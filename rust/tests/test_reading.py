"""The reading of dumps: brackets, types, places, statements, terminators, and a whole dump. Nothing here is proved."""
import unittest
from pathlib import Path

from support import KEPT

from nlldb_rust import dump, elements, mir, places, scan, spans, statements, terminators, types
from nlldb_rust.refused import Refused
from nlldb_rust.types import Kind


class Scan(unittest.TestCase):
    def test_groups_know_strings_and_arrows(self):
        self.assertEqual(scan.group_end('f(a -> b, ")", [c]) d', 1), 19)
        self.assertEqual(scan.split_outside('a, (b, c), "d, e", f<g, h>'), ["a", "(b, c)", '"d, e"', "f<g, h>"])
        self.assertEqual(scan.find_outside("f(a as b) as c", " as "), 9)
        self.assertEqual(scan.last_group_start("f::<(a, b)>(c, (d))"), 11)
        with self.assertRaises(Refused):
            scan.group_end("(a", 0)


class Types(unittest.TestCase):
    def read(self, text, **paths):
        return types.TypeReader({name: set(full) for name, full in paths.items()}).read(text)

    def test_a_reference_to_a_constructor(self):
        it = self.read("&'?3 mut std::vec::Vec<&'?4 str>")
        self.assertEqual((it.shape.key, it.regions, it.shape.mutable), ("&mut '_ Vec<&'_ str>", (3, 4), True))
        self.assertEqual(it.part(0).regions, (4,))

    def test_numbers_are_one_shape(self):
        self.assertIs(self.read("u8").shape, self.read("()").shape)

    def test_tuples_arrays_pointers_and_closures(self):
        self.assertEqual(self.read("(&'?1 i32, u8)").shape.kind, Kind.TUPLE)
        self.assertEqual(self.read("[&'?1 i32; 4]").shape.key, "[&'_ int;]")
        self.assertEqual(self.read("*const &'?1 i32").shape.kind, Kind.POINTER)
        it = self.read("{f::{closure#0} closure_kind_ty=i8 closure_sig_as_fn_ptr_ty=fn((&'?9 u8,)) upvar_tys=(&'?2 i32, u8)}")
        self.assertEqual((it.shape.kind, it.shape.name, it.regions), (Kind.CLOSURE, "f::{closure#0}", (2, 9)))

    def test_two_types_of_one_name_have_their_paths(self):
        both = {"Pair": ["a::Pair", "b::Pair"]}
        self.assertNotEqual(self.read("a::Pair<u8>", **both).shape.key, self.read("b::Pair<u8>", **both).shape.key)

    def test_static_and_bound_regions(self):
        self.assertEqual(self.read("&'static str").regions, (types.STATIC,))
        self.assertEqual(self.read("dyn for<'a> Fn(&'^0 u8) + '?7").regions, (7,))

    def test_a_coroutine_is_refused(self):
        with self.assertRaisesRegex(Refused, "coroutine"):
            self.read("{f::{closure#0} upvar_tys=() yield_ty=u8}")


class Places(unittest.TestCase):
    def test_a_place_with_all_steps(self):
        it = places.read_place("(((*((*_1).0: &'?6 std::option::Option<T>)) as Some).2: u8)")
        self.assertEqual([step.step.value for step in it.projections], ["deref", "field", "deref", "variant", "field"])
        self.assertEqual(places.read_place("(*_2)[_7]").projections[1], mir.Projection(mir.Step.INDEX, 7))
        self.assertEqual(places.read_place("_2[-1 of 3]").projections[0], mir.Projection(mir.Step.CONSTANT_INDEX, -1, "3"))
        with self.assertRaises(Refused):
            places.read_place("_1 x")

    def test_operands(self):
        self.assertEqual(places.read_operand("move _3"), mir.Operand(mir.Access.MOVE, mir.Place(3)))
        self.assertEqual([it.place.local for it in places.operands_in('move (_1.0: u8), "x", copy _2')], [1, 2])


class Elements(unittest.TestCase):
    def group(self, *texts):
        pieces = [elements.piece_of(places.read_place(f"_1[{text}]").projections[0]) for text in texts]
        groups = elements.groups_of(pieces)
        return [groups[piece] for piece in pieces]

    def test_the_first_and_the_rest_do_not_overlap(self):
        self.assertEqual(self.group("0 of 1", "1:"), [1, 2])
        self.assertEqual(self.group("0 of 2", "-1 of 2", "1:-1"), [1, 2, 3])

    def test_what_may_overlap_is_one(self):
        self.assertEqual(len(set(self.group("0 of 1", "-1 of 1"))), 1)
        self.assertEqual(len(set(self.group("1 of 2", "1:"))), 1)
        self.assertEqual(len(set(self.group("0..2", "1..3"))), 1)
        self.assertEqual(self.group("0..2", "2..3"), [1, 2])


class Statements(unittest.TestCase):
    def value(self, text):
        return statements.read_statement(f"_1 = {text}").value

    def test_values(self):
        self.assertEqual(self.value("&'?3 mut (*_2)").borrow, mir.Borrow.MUTABLE)
        self.assertEqual(self.value("&'?3 fake shallow _2").borrow, mir.Borrow.FAKE_SHALLOW)
        self.assertEqual(self.value("&raw mut (*_2)"), mir.RawRef(True, places.read_place("(*_2)")))
        self.assertIsInstance(self.value("move _2 as *const u8 (PtrToPtr)"), mir.Cast)
        self.assertEqual(self.value("Len((*_2))").length_of, places.read_place("(*_2)"))
        self.assertEqual(len(self.value("AddWithOverflow(copy _2, move _3)").operands), 2)
        self.assertEqual(self.value("discriminant((*_2))"), mir.Discriminant(places.read_place("(*_2)")))

    def test_aggregates(self):
        it = self.value("a::Pair::<'?4> { left: move _2, right: copy _3 }")
        self.assertEqual((it.made, it.path, it.generics, len(it.operands)), (mir.Made.CONSTRUCTED, "a::Pair", "::<'?4>", 2))
        self.assertEqual(self.value("(move _2, const ConstValue(Scalar(0x0): u8))").made, mir.Made.TUPLE)
        self.assertEqual(self.value("{closure@a.rs:1:2: 1:3} { k: move _2 }").made, mir.Made.CLOSURE)
        self.assertEqual(len(self.value("[move _2; 3]").operands), 1)

    def test_what_means_nothing_and_what_cannot_be_read(self):
        self.assertEqual(statements.read_statement("StorageDead(_4)"), mir.StorageDead(4))
        self.assertEqual(statements.read_statement("FakeRead(ForMatchGuard, _4)"), mir.GuardRead(4))
        self.assertEqual(statements.read_statement("PlaceMention(_4)"), mir.Nothing())
        self.assertEqual(statements.read_statement("discriminant(_4) = 1").reason, "set discriminant")


class Terminators(unittest.TestCase):
    def test_a_call_and_where_it_leads(self):
        it = terminators.read_terminator("_0 = ConstValue(ZeroSized: fn() {a::<u8>::f})(move _1) -> [return: bb2, unwind: bb5]")
        self.assertEqual((it.kind.target, it.targets, it.unwind), (2, (2,), 5))
        self.assertEqual(it.kind.operands, (mir.Operand(mir.Access.MOVE, mir.Place(1)),))

    def test_a_call_that_does_not_return(self):
        it = terminators.read_terminator("_0 = ConstValue(ZeroSized: fn() {panic})() -> bb5")
        self.assertEqual((it.kind.target, it.targets, it.unwind), (None, (), 5))

    def test_the_others(self):
        self.assertEqual(terminators.read_terminator("switchInt(move _1) -> [0: bb1, 1: bb2, otherwise: bb1]").kind.targets, (1, 2))
        self.assertEqual(terminators.read_terminator("falseEdge -> [real: bb1, imaginary: bb2]").kind, mir.FalseEdge(1, 2))
        self.assertEqual(terminators.read_terminator("drop(_3) -> [return: bb1, unwind continue]").kind, mir.Drop(mir.Place(3), 1))
        self.assertEqual(terminators.read_terminator("yield(_1) -> [resume: bb1]").kind.reason, "terminator: yield")


class Dumps(unittest.TestCase):
    def read(self, name):
        return dump.read_dump(KEPT / "small" / "dumps" / f"small.{name}.-------.nll.0.mir")

    def test_a_whole_dump(self):
        it = self.read("pair")
        self.assertEqual(it.names, {1: "left", 2: "right", 3: "both"})
        self.assertEqual(len(it.parameters), 2)
        self.assertEqual(spans.read_span(it.span).line, 21)
        self.assertIn("Return", " ".join(constraint.category for constraint in it.constraints))
        self.assertIsInstance(it.blocks[-1].terminator.kind, mir.Return)

    def test_each_kept_dump_is_read_whole(self):
        for path in sorted(KEPT.glob("*/dumps/*.mir")):
            it = dump.read_dump(path)
            unread = [what for block in it.blocks for what in (*block.statements, block.terminator.kind) if isinstance(what, mir.Unread)]
            self.assertEqual(unread, [], path.name)
            self.assertEqual(dump.trimmed(path.read_text()), path.read_text())

    def test_another_form_is_refused(self):
        with self.assertRaisesRegex(Refused, "no body"):
            dump.read_dump(Path(__file__))


if __name__ == "__main__":
    unittest.main()
