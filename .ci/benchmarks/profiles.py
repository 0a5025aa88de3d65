"""The files that rustc writes with `-Z self-profile`: which of its queries and activities ran, and when."""
import struct, typing

# The version of the format that is read here, as the file's header has it.
FORMAT = b"MMPD" + struct.pack("<I", 9)
EVENTS, STRINGS, INDEX = range(3)
# The number of a string less the second of these is where the string begins. Where a number below the first begins is in the index.
INDEXED, FIRST = 100_000_000, 100_000_003
# What a string has beside bytes of UTF-8: its end, references to other strings, and what separates a name from its argument.
END, REFERENCE, ARGUMENT = 0xFF, 0xFE, "\x1e"
# The greatest end. Events without one have a greater number there.
LAST = 0xFFFF_FFFF_FFFD


class Unreadable(Exception):
    """The file is in another format."""


class Event(typing.NamedTuple):
    """A query or an activity: its name, the thread that it ran on, and when it began and ended, in nanoseconds."""

    name: str
    thread: int
    began: int
    ended: int

    def took(self):
        """In seconds."""
        return (self.ended - self.began) / 1e9

    def is_within(self, other):
        return self.thread == other.thread and other.began <= self.began and self.ended <= other.ended


def streams_of(data):
    """The three streams of a file, which it has in pages."""
    if not data.startswith(FORMAT):
        raise Unreadable(f"its format is {data[:8]!r}")
    streams, at = [b"", b"", b""], len(FORMAT)
    while at < len(data):
        stream, size = struct.unpack_from("<BI", data, at)
        streams[stream] += data[at + 5 : at + 5 + size]
        at += 5 + size
    return streams


def name_of(number, strings, index):
    """The string of a number, up to its argument."""
    at, name = index[number] if number < INDEXED else number - FIRST, bytearray()
    while strings[at] != END:
        if strings[at] == REFERENCE:
            name += name_of(struct.unpack_from("<Q", strings, at + 1)[0], strings, index).encode()
            at += 9
        else:
            name.append(strings[at])
            at += 1
    return name.decode().partition(ARGUMENT)[0]


def events_of(path):
    """The events of a file that have a beginning and an end."""
    with open(path, "rb") as it:
        streams = streams_of(it.read())
    # (each stream has a header of eight bytes)
    index = dict(struct.iter_unpack("<QQ", streams[INDEX][8:]))
    for _, label, thread, began, ended, high in struct.iter_unpack("<QQIIII", streams[EVENTS][8:]):
        began, ended = began | high >> 16 << 32, ended | (high & 0xFFFF) << 32
        if ended <= LAST:
            yield Event(name_of(label, streams[STRINGS], index), thread, began, ended)
