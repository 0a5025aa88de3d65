"""How a type that rustc spells in several ways gets one name, and which locals a path leaves without a value."""
import tempfile
import unittest
from collections import defaultdict
from pathlib import Path

import support
from nlldb_rust import drops, kept
from nlldb_rust.dump import read_dump
from nlldb_rust.types import TypeReader


def read(text, *paths):
    known = defaultdict(set)
    for path in paths:
        known[path.rsplit("::", 1)[-1]].add(path)
    return TypeReader(known).read(text).shape.key


class Names(unittest.TestCase):
    def test_the_one_type_of_its_last_segment_has_that_for_its_name(self):
        self.assertEqual(read("a::b::Builder", "a::b::Builder"), "Builder")

    def test_of_several_a_shortened_path_is_the_one_that_ends_so(self):
        paths = ("a::b::Builder", "c::Builder")
        self.assertEqual(read("b::Builder", *paths), read("a::b::Builder", *paths))
        self.assertNotEqual(read("c::Builder", *paths), read("a::b::Builder", *paths))

    def test_generics_within_a_path_are_those_of_what_the_type_lies_in(self):
        self.assertEqual(read("nfa::Compiler<'a/#0, S>::fill::Queued<'?3, S>"), read("Queued<'?7, S>"))


class Values(unittest.TestCase):
    def test_a_local_has_no_value_on_the_path_that_moved_it(self):
        files = kept.unpacked(support.HERE.parent / "suite" / "kept" / "drops.tar.xz")
        with tempfile.TemporaryDirectory() as at:
            path = Path(at, "dump")
            path.write_bytes(next(data for name, data in files.items() if "loud_is_moved_on_one_path." in name))
            dump = read_dump(path)
        found, dropped = drops.maybe_initialized(dump), drops.dropped_whole(dump)
        edges = [(number, target) for number in found.behind for target in dump.blocks[number].terminator.targets]
        ended = {local for source, target in edges for local in found.only_elsewhere(source, target, dropped)}
        self.assertEqual({dump.names[local] for local in ended}, {"loud"})


if __name__ == "__main__":
    unittest.main()
