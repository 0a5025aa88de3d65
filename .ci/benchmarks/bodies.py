"""Bodies that are timed: seven shapes of code, each in the language of `docs/user/language.md` and as Rust, and three bodies with loans that
live long. `.ci/benchmarks/bench` and `.ci/benchmarks/shapes` write files of them."""
import typing


class Shape(typing.NamedTuple):
    """A body without errors: what it has, its text, and the same function as Rust, where `NAME` stands for the function's name."""

    about: str
    text: str
    rust: str


STRUCT = "struct S { " + " ".join(["int;"] * 16) + " }"
RUST_STRUCT = "struct S { " + ", ".join(f"f{field}: i32" for field in range(16)) + " }"


def function(head, first, types, blocks):
    """A function whose `let` locals have these types, numbered from the first, and whose blocks have these points."""
    lets = (f"let _{local}: {type};" for local, type in enumerate(types, first))
    bodies = (f"bb{number} {{ {points} }}" for number, points in enumerate(blocks))
    return f"fn {head} -> int {{ {' '.join([*lets, *bodies])} }}"


def rust_function(parameters, statements):
    return f"fn NAME{parameters} -> i32 {{ {' '.join(statements)} out }}"


def references(count):
    """The types of so many references, each of a region of its own."""
    return [f"&'?{region} int" for region in range(count)]


def rust_references(count, place):
    return [f"let mut r{number}: &i32 = &{place.format(number)};" for number in range(count)]


def reads(count):
    return " ".join(f"_0 = copy _{number + 3}.*;" for number in range(count))


def rust_reads(count):
    return " ".join(f"out = *r{number};" for number in range(count))


def borrows(turn, count, behind=""):
    """So many references, each made anew by a loan of another region, and what follows each. In that the first `{}` is for the number of
    the reference, and the second for a field from 12 to 15."""
    return " ".join(
        f"_{number + 3} = &'?{(turn * count + number) % 900 + count} _2{behind.format(number, 12 + number % 4)};" for number in range(count)
    )


def shared_line(turns=1000, width=80):
    points, lets, statements = [], ["let mut out: i32;"], []
    lets += (f"let mut a{at}: i32; let mut r{at}: &i32; let mut b{at}: i32;" for at in range(width))
    for turn in range(turns):
        at = turn % width
        place, reference, value = 3 * at + 1, 3 * at + 2, 3 * at + 3
        made = f"_{place} = {turn}; _{reference} = &'?{width + at} _{place};"
        points.append(f"{made} _{value} = copy _{reference}.*; _{place} = copy _{value};")
        statements.append(f"a{at} = {turn}; r{at} = &a{at}; b{at} = *r{at}; a{at} = b{at};")
    types = [type for reference in references(width) for type in ("int", reference, "int")]
    return (
        function("()", 1, types, [" ".join([*points, "_0 = copy _3; return;"])]),
        rust_function("()", [*lets, *statements, "out = b0;"]),
    )


def reborrows(turns=1300, width=60):
    points, statements = [], ["let mut out: i32 = 0;", *(f"let mut m{at}: &mut i32;" for at in range(width))]
    for turn in range(turns):
        at = turn % width
        points.append(f"_{at + 2} = &'?{width + at} mut _1.*; _{at + 2}.* = {turn}; _0 = copy _{at + 2}.*;")
        statements.append(f"m{at} = &mut *p; *m{at} = {turn}; out = *m{at};")
    types = [f"&'?{region} mut int" for region in range(width)]
    return (
        function("<'a> (&'a mut int)", 2, types, [" ".join([*points, "return;"])]),
        rust_function("<'a>(p: &'a mut i32)", statements),
    )


def ladder(turns=80):
    blocks, statements = ["_2 = 0; _0 = 0; goto bb1;"], ["let mut a: i32 = 0; let mut r: &i32; let mut out: i32 = 0;"]
    for turn in range(turns):
        at = 3 * turn + 1
        arm = f"_3 = &'?1 _2; _0 = copy _3.*; _2 = {turn}; _4 = copy _2; _2 = copy _4; goto bb{at + 3};"
        blocks += [f"_2 = {turn}; if copy _1 bb{at + 1} bb{at + 2};", arm, arm]
        rust_arm = f"r = &a; out = *r; a = {turn}; let d = a; a = d;"
        statements.append(f"a = {turn}; if c != 0 {{ {rust_arm} }} else {{ {rust_arm} }}")
    return (
        function("(int)", 2, ["int", "&'?0 int", "int"], [*blocks, "return;"]),
        rust_function("(c: i32)", statements),
    )


def loops(turns=60):
    blocks, statements = ["_2 = 0; _0 = 0; goto bb1;"], ["let mut a: i32 = 0; let mut r: &i32; let mut out: i32 = 0;"]
    for turn in range(turns):
        at = 3 * turn + 1
        blocks.append(f"_2 = {turn}; _3 = &'?1 _2; goto bb{at + 1};")
        blocks.append(f"_0 = copy _3.*; _4 = copy _2; if copy _1 bb{at + 1} bb{at + 2};")
        blocks.append(f"_2 = copy _4; goto bb{at + 3};")
        statements.append(f"a = {turn}; r = &a; let mut d; loop {{ out = *r; d = a; if c == 0 {{ break; }} }} a = d;")
    return (
        function("(int)", 2, ["int", "&'?0 int", "int"], [*blocks, "return;"]),
        rust_function("(c: i32)", statements),
    )


def first_borrows(count, behind=""):
    """So many references to `_2`, made by loans of one region."""
    return " ".join(f"_{number + 3} = &'?{count} _2{behind.format(number)};" for number in range(count))


def held(turns=80, count=14):
    blocks = [f"_2 = 0; {first_borrows(count)} goto bb1;"]
    statements = ["let x: i32 = 0; let mut out: i32 = 0;", *rust_references(count, "x")]
    for turn in range(turns):
        at = 2 * turn + 1
        blocks += [f"if copy _1 bb{at + 1} bb{at + 2};", f"{borrows(turn, count)} goto bb{at + 2};"]
        statements.append(f"if c == {turn} {{ " + " ".join(f"r{number} = &x;" for number in range(count)) + " }")
    return (
        function("(int)", 2, ["int", *references(count)], [*blocks, f"{reads(count)} return;"]),
        rust_function("(c: i32)", [*statements, rust_reads(count)]),
    )


def held_in_loops(turns=60, count=14):
    blocks = [f"_2 = 0; {first_borrows(count)} goto bb1;"]
    statements = ["let x: i32 = 0; let mut out: i32 = 0;", *rust_references(count, "x")]
    for turn in range(turns):
        at, read = 3 * turn + 1, turn % count
        blocks += [f"if copy _1 bb{at + 1} bb{at + 2};", f"{borrows(turn, count)} goto bb{at};"]
        blocks.append(f"_0 = copy _{read + 3}.*; goto bb{at + 3};")
        made = " ".join(f"r{number} = &x;" for number in range(count))
        statements.append(f"while c == {turn} {{ {made} }} out = *r{read};")
    return (
        function("(int)", 2, ["int", *references(count)], [*blocks, f"{reads(count)} return;"]),
        rust_function("(c: i32)", [*statements, rust_reads(count)]),
    )


def held_fields(turns=100, count=12):
    blocks = [f"_2 = S({', '.join(['0'] * 16)}); {first_borrows(count, '.{}')} goto bb1;"]
    fields = ", ".join(f"f{field}: 0" for field in range(16))
    statements = [f"let mut s = S {{ {fields} }}; let mut out: i32 = 0;", *rust_references(count, "s.f{}")]
    for turn in range(turns):
        at = 2 * turn + 1
        made = borrows(turn, count, f".{{}}; _2.{{}} = {turn}")
        blocks += [f"if copy _1 bb{at + 1} bb{at + 2};", f"{made} goto bb{at + 2};"]
        rust_made = " ".join(f"r{number} = &s.f{number}; s.f{12 + number % 4} = {turn};" for number in range(count))
        statements.append(f"if c == {turn} {{ {rust_made} }}")
    return (
        function("(int)", 2, ["S", *references(count)], [*blocks, f"{reads(count)} return;"]),
        rust_function("(c: i32)", [*statements, rust_reads(count)]),
    )


SHAPES = {
    "line": Shape("a line of shared borrows, reads and overwrites, 1,000 of them", *shared_line()),
    "mutual": Shape("a line of mutable reborrows through a parameter, 1,300 of them", *reborrows()),
    "ladder": Shape("a chain of 80 `if`s, each arm borrows and reads", *ladder()),
    "loop": Shape("60 loops, each with a borrow that lives round it", *loops()),
    "held": Shape("14 references that 80 branches make anew, read at the end", *held()),
    "rounds": Shape("14 references that 60 loops make anew, read at the end", *held_in_loops()),
    "shared": Shape("12 references to fields that 100 branches make anew while other fields are written", *held_fields()),
}


def check_file(texts):
    """A file of `check`, in parts: it puts each text under a name of its own, and declares the struct `S` where a text creates it."""
    if any("S(" in text for text in texts):
        yield f"@types\n{STRUCT}\n"
    yield from (f"@put f{number}\n{text}\n" for number, text in enumerate(texts))


def rust_file(shape, count):
    """Rust source, in parts: so many functions of a shape."""
    yield "#![allow(warnings)]\n"
    if "S {" in shape.rust:
        yield f"{RUST_STRUCT}\n"
    yield from (f"pub {shape.rust.replace('NAME', f'f{number}')}\n" for number in range(count))


# Loans that live long.


def lasting(conflicts=0):
    """1,962 loans of one local, all in scope to the end, and then so many mutable borrows of it, each of which conflicts with them all."""
    lets = "let _1:int;let _2:&'?0 int;let _3:&'?2 mut int;let _4:&'?0 int;"
    last = "_3=&'?3 mut _1;" * conflicts or "nop;"
    return f"fn()->int{{{lets}bb0{{_1=1;_4=&'?0 _1;" + "_2=&'?0 _1;nop;" * 1961 + f"{last}_0=copy _4.*;return;}}}}"


def lasting_in_loops():
    """250 blocks with branches forward and back, and 1,488 loans of two locals, which 40 references hold to the end."""
    lets = "let _2:int;let _3:int;" + "".join(f"let _{4 + region}:&'?{region} int;" for region in range(40))
    blocks = ["_2=1;_3=1;goto bb1;"]
    for at in range(1, 249):
        loans = range(6 * at, 6 * at + 6)
        made = "".join(f"_{4 + loan % 40}=&'?{100 + loan % 800} _{2 + (loan - 6 * at) % 2};" for loan in loans)
        blocks.append(f"{made}if copy _1 bb{at + 1} bb{max(1, at - 5)};")
    blocks.append("".join(f"_0=copy _{4 + region}.*;" for region in range(40)) + "return;")
    return f"fn(int)->int{{{lets}" + "".join(f"bb{at}{{{points}}}" for at, points in enumerate(blocks)) + "}"
