"""The objects of drawn scripts: the text that the program reads, and beside it the same by hand, its paths as trees and its
bodies as functions."""
import pathlib
import random

from gate.slow_holds import Hold
from gate.slow_world import (
    MOST, Any, Array, Bound, Burst, Contents, Object, Queue, Refusal, Sequence, Table, append, element, first, lookup, set_element, whole, written,
)

EXAMPLES = pathlib.Path(__file__).resolve().parent.parent / "examples" / "objects"

# What arguments are drawn from.
INTEGERS = (0, 1, 2, 3, 7, 10, 99, 65535, 2147483648, MOST - 1, MOST)
SMALL = (0, 1, 2, 3, 5)
PLACES = (0, 0, 1, 1, 32, 33, 254, 255, 1023, 1024)
FRONT = (0, 0, 0, 1, 1, 33)
# A text has two bytes more than its letters, and at most 1,000 letters.
KEYS = ("", "a", "ab", "A", "it's", "b" * 256, "b" * 1000)
HELD = ("", "k00", "k00", "k16", "k31", "z", "k" * 255, "k" * 1000)
# An array of 33 texts, one of 250 bytes and 32 of 246, has 8,192 bytes, the most that pages of 1,024 hold. One of 33 texts of
# 494 bytes has 16,372, a page of 2,048 less than it may, and one of 33 of 1,000 bytes has 33,070.
LONG = ("", "m" * 246, "m" * 246, "n" * 246, "m" * 250, "m" * 250, "n" * 251, "m" * 494, "n" * 1000)
# Sixteen texts of 254 bytes have 4,096 bytes, and of 510 bytes 8,192, so that pages are alike.
LIKE = ("", "'" * 254, "'" * 254, "'" * 254, "'" * 254, "'" * 510, "m" * 246, "m" * 1000)
TEXTS = ("", "a", "it's", "''", " x ", "#", "~" * 184, "m" * 246, "n" * 250, "m" * 251, "'" * 255, "n" * 256, "m" * 700, "~" * 999, "'" * 1000)
# Places of an array of integers, at the ends of pages. Where all are 0 again a page is as others are.
EDGES = (0, 254, 255, 255, 511, 511, 1022, 1023, 1024)
FEW = (0, 0, 1)
# Places around the ends of arrays of 255, 256, 511 and 1,023 integers, of pages, and of arrays of other lengths.
SPANS = (0, 1, 199, 254, 254, 255, 256, 510, 511, 766, 767, 1022, 1023)
LENGTHS = random.Random(1024).sample(range(200, 1025), 3)


def example(name: str) -> str:
    """The text of an object of examples/objects."""
    return (EXAMPLES / f"{name}.pp").read_text(encoding="ascii")


def call_of(draw: random.Random, made: Object) -> str:
    """A drawn call of an object, as a client says it."""
    op = draw.choice(list(made.operations))
    return " ".join([op, *(written(draw.choice(it)) for it in made.operations[op].draws)])


def cell_bump(c: Contents, x: int) -> None:
    c["v"][0] = whole(c["v"][0] + x)


def buffer_remove(c: Contents) -> int:
    oldest = first(c["box"])
    del c["box"][0]
    return oldest


def book_write(c: Contents, k: str, x: str) -> None:
    if k in c["t"]:
        raise Refusal("taken")
    c["t"][k] = x


def book_wipe(c: Contents, k: str) -> None:
    lookup(c["t"], k)
    del c["t"][k]


def one_more(c: Contents) -> None:
    c["v"][0] = whole(c["v"][0] + 1)


def ledger_add(c: Contents, i: int, x: int) -> None:
    set_element(c["tally"], i, whole(element(c["tally"], i) + x))


def ledger_fill(c: Contents, x: str, y: str) -> None:
    c["page"] = [x] + [y] * 32


def ledger_move(c: Contents, i: int, j: int) -> None:
    set_element(c["tally"], i, whole(element(c["tally"], i) - 1))
    set_element(c["tally"], j, whole(element(c["tally"], j) + 1))
    set_element(c["page"], j, element(c["page"], i))


def ledger_idle(_: object, x: int) -> int:
    if x < 3:
        raise Refusal("small")
    return whole(x - 3)


def wide_pick(c: Contents, i: int, j: int) -> int:
    first_one = element(c["v"], i)
    return element(c["v"], first_one if first_one else j)


def wide_copy(c: Contents, i: int, j: int) -> None:
    set_element(c["v"], i, element(c["v"], j))
    set_element(c["v"], j, whole(element(c["v"], i) + 1))


def wide_both(c: Contents, x: int, y: int) -> None:
    set_element(c["v"], 0, x)
    set_element(c["v"], 1023, y)


def spans_get(c: Contents, i: int, j: int) -> int:
    return whole(element(c["b"], i) + element(c["e"], j))


def spans_put(c: Contents, i: int, x: int) -> None:
    set_element(c["c"], i, x)
    set_element(c["e"], i, x)


def spans_move(c: Contents, i: int, j: int) -> None:
    set_element(c["d"], i, element(c["a"], j))
    set_element(c["a"], j, whole(element(c["e"], i) + 1))
    set_element(c["e"], j, element(c["d"], i))


def spans_count(c: Contents, i: int) -> int:
    return whole(len(c["a"]) + len(c["b"]) + len(c["c"]) + len(c["e"]) + element(c["d"], i))


def spans(length: int) -> Object:
    """An object with arrays that fill their last page, miss it by an element, or end within it."""
    return Object(
        f"spans{length}",
        f"""object spans{length};
  path 1:([get, all], put, move) end;
  var a : array [255] of integer;
      b : array [256] of integer;
      c : array [511] of integer;
      d : array [1023] of integer;
      e : array [{length}] of integer;
  entry function get(i, j : integer) : integer; begin get := b[i] + e[j] end;
  entry function all(i : integer) : integer; begin all := count(a) + count(b) + count(c) + count(e) + d[i] end;
  entry procedure put(i, x : integer); begin c[i] := x; e[i] := x end;
  entry procedure move(i, j : integer); begin d[i] := a[j]; a[j] := e[i] + 1; e[j] := d[i] end;
end;
""",
        [Bound(1, Any(Burst(Any("get", "all")), "put", "move"))],
        {
            "a": Array(255, "integer"),
            "b": Array(256, "integer"),
            "c": Array(511, "integer"),
            "d": Array(1023, "integer"),
            "e": Array(length, "integer"),
        },
        {
            "get": ((SPANS, SPANS), ("b", "e"), spans_get, 2),
            "all": ((SPANS,), ("a", "b", "c", "d", "e"), spans_count),
            "put": ((SPANS, FEW), ("c", "e"), spans_put, 3),
            "move": ((SPANS, SPANS), ("a", "d", "e"), spans_move, 3),
        },
    )


def shelves_pour(c: Contents, x: str) -> None:
    for _ in range(16):
        append(c["line"], x)


def shelves_drain(c: Contents) -> None:
    for _ in range(16):
        first(c["line"])
        del c["line"][0]


def shelves_fill(c: Contents, x: str) -> None:
    c["held"].update({f"k{at:02}": x for at in range(32)})


def shelves_drop(c: Contents, k: str) -> None:
    lookup(c["held"], k)
    del c["held"][k]


def shelves_move(c: Contents, k: str) -> None:
    c["held"][k] = first(c["line"])
    del c["line"][0]


def hall_come(c: Contents, x: int) -> None:
    c["seats"][0] = whole(c["seats"][0] + x)


def hall_leave(c: Contents) -> None:
    c["seats"][0] = whole(c["seats"][0] - 1)


def hall_never(_: object) -> None:
    raise Refusal("never")


def hall_clear(c: Contents) -> None:
    first(c["log"])
    del c["log"][0]


def jobs_claim(c: Contents) -> str:
    oldest = first(c["line"])
    del c["line"][0]
    return oldest


def jobs_finish(c: Contents, x: str) -> None:
    if x == "it's":
        raise Refusal("never")
    c["tally"][0] = whole(c["tally"][0] + 1)


def seats_book(c: Contents, i: int, x: str) -> None:
    if element(c["who"], i) != "":
        raise Refusal("taken")
    set_element(c["who"], i, x)


def seats_free(c: Contents, i: int, x: str) -> None:
    if element(c["who"], i) != x:
        raise Refusal("other")
    set_element(c["who"], i, "")


OBJECTS = (
    Object(
        "cell",
        example("cell"),
        [Bound(1, Any(Burst("get"), "put", "bump"))],
        {"v": Array(1, "integer")},
        {
            "get": ((), ("v",), lambda c: c["v"][0]),
            "put": (((0, 0, 7, MOST),), ("v",), lambda c, x: set_element(c["v"], 0, x)),
            "bump": ((INTEGERS,), ("v",), cell_bump),
        },
    ),
    Object(
        "buffer",
        example("buffer"),
        [Bound(5, Sequence("deposit", "remove")), Bound(1, Any("deposit", "remove"))],
        {"box": Queue("integer")},
        {
            "deposit": ((INTEGERS,), ("box",), lambda c, x: append(c["box"], x)),
            "remove": ((), ("box",), buffer_remove),
        },
    ),
    Object(
        "book",
        example("book"),
        [Bound(1, Any(Burst(Any("find", "size")), "write", "wipe"))],
        {"t": Table("text")},
        {
            "write": ((KEYS, TEXTS), ("t",), book_write, 3),
            "find": ((KEYS,), ("t",), lambda c, k: lookup(c["t"], k)),
            "wipe": ((KEYS,), ("t",), book_wipe),
            "size": ((), ("t",), lambda c: len(c["t"])),
        },
    ),
    Object(
        "two",
        example("two"),
        [Bound(1, Sequence("a", "b"))],
        {"v": Array(1, "integer")},
        {"a": ((), ("v",), one_more), "b": ((), ("v",), one_more)},
    ),
    Object(
        "ledger",
        """object ledger;
  path 1:(add, move, [sum]) end;
  path 1:(write, fill, move, [read]) end;
  path 4:(write; [read]) end;
  path 2:(idle, sum), add end;
  var tally : array [1024] of integer;
      page : array [33] of text;
  entry procedure add(i, x : integer); begin tally[i] := tally[i] + x end;
  entry function sum(i, j : integer) : integer; begin sum := tally[i] + tally[j] end;
  entry procedure write(i : integer; x : text); begin page[i] := x end;
  entry procedure fill(x, y : text);
  begin
%s  end;
  entry procedure move(i, j : integer);
  begin
    tally[i] := tally[i] - 1;
    tally[j] := tally[j] + 1;
    page[j] := page[i]
  end;
  entry function read(i : integer) : text; begin read := page[i] end;
  entry function idle(x : integer) : integer; begin if x < 3 then refuse('small') else idle := x - 3 end;
end;
"""
        % "".join(f"    page[{at}] := {'y' if at else 'x'};\n" for at in range(33)),
        [
            Bound(1, Any("add", "move", Burst("sum"))),
            Bound(1, Any("write", "fill", "move", Burst("read"))),
            Bound(4, Sequence("write", Burst("read"))),
            Any(Bound(2, Any("idle", "sum")), "add"),
        ],
        {"tally": Array(1024, "integer"), "page": Array(33, "text")},
        {
            "add": ((PLACES, INTEGERS), ("tally",), ledger_add, 3),
            "sum": ((PLACES, PLACES), ("tally",), lambda c, i, j: whole(element(c["tally"], i) + element(c["tally"], j))),
            "write": ((PLACES, TEXTS), ("page",), lambda c, i, x: set_element(c["page"], i, x), 2),
            "fill": ((LONG, LONG), ("page",), ledger_fill, 4),
            "move": ((FRONT, FRONT), ("tally", "page"), ledger_move, 3),
            "read": ((PLACES,), ("page",), lambda c, i: element(c["page"], i)),
            "idle": ((SMALL,), (), ledger_idle),
        },
    ),
    Object(
        "wide",
        """object wide;
  path 1:([get, pick], put, both, copy) end;
  var v : array [1024] of integer;
  entry function get(i : integer) : integer; begin get := v[i] end;
  entry function pick(i, j : integer) : integer; begin if v[i] <> 0 then pick := v[v[i]] else pick := v[j] end;
  entry procedure put(i, x : integer); begin v[i] := x end;
  entry procedure both(x, y : integer); begin v[0] := x; v[1023] := y end;
  entry procedure copy(i, j : integer); begin v[i] := v[j]; v[j] := v[i] + 1 end;
end;
""",
        [Bound(1, Any(Burst(Any("get", "pick")), "put", "both", "copy"))],
        {"v": Array(1024, "integer")},
        {
            "get": ((EDGES,), ("v",), lambda c, i: element(c["v"], i)),
            "pick": ((EDGES, EDGES), ("v",), wide_pick, 2),
            "put": ((EDGES, FEW), ("v",), lambda c, i, x: set_element(c["v"], i, x), 3),
            "both": ((FEW, FEW), ("v",), wide_both, 2),
            "copy": ((EDGES, EDGES), ("v",), wide_copy, 3),
        },
    ),
    *(spans(it) for it in LENGTHS),
    Object(
        "shelves",
        """object shelves;
  path 1:(pour, drain, move, [oldest, all]) end;
  path 1:(fill, hold, drop, move, [find, all]) end;
  var line : queue of text;
      held : table of text;
  entry procedure pour(x : text);
  begin
%s  end;
  entry procedure drain;
  begin
%s  end;
  entry function oldest : text; begin oldest := first(line) end;
  entry procedure fill(x : text);
  begin
%s  end;
  entry procedure hold(k, x : text); begin store(held, k, x) end;
  entry procedure drop(k : text); begin erase(held, k) end;
  entry procedure move(k : text); begin store(held, k, first(line)); take(line) end;
  entry function find(k : text) : text; begin find := lookup(held, k) end;
  entry function all : integer; begin all := count(line) + count(held) end;
end;
"""
        % (
            "    append(line, x);\n" * 16,
            "    take(line);\n" * 16,
            "".join(f"    store(held, 'k{at:02}', x);\n" for at in range(32)),
        ),
        [
            Bound(1, Any("pour", "drain", "move", Burst(Any("oldest", "all")))),
            Bound(1, Any("fill", "hold", "drop", "move", Burst(Any("find", "all")))),
        ],
        {"line": Queue("text"), "held": Table("text")},
        {
            "pour": ((LIKE,), ("line",), shelves_pour, 5),
            "drain": ((), ("line",), shelves_drain),
            "oldest": ((), ("line",), lambda c: first(c["line"])),
            "fill": ((LONG,), ("held",), shelves_fill, 2),
            "hold": ((HELD, TEXTS), ("held",), lambda c, k, x: c["held"].update({k: x}), 2),
            "drop": ((HELD,), ("held",), shelves_drop),
            "move": ((HELD,), ("line", "held"), shelves_move),
            "find": ((HELD,), ("held",), lambda c, k: lookup(c["held"], k)),
            "all": ((), ("line", "held"), lambda c: len(c["line"]) + len(c["held"])),
        },
    ),
    Object(
        "hall",
        """object hall;
  const most = 3;
  path most:([look, 2:(peek; leave)], come) end;
  path 1:(come, leave, [look, peek]) end;
  path 2:(1:(open); [use, 1:(never)]; shut) end;
  path 1:(shut, clear, [length, last]) end;
  path [3:(use, look); clear], 2:(come, (leave; [2:(length)])) end;
  var seats : array [1] of integer;
      log : queue of text;
  entry procedure come(x : integer); begin seats[0] := seats[0] + x end;
  entry procedure leave; begin seats[0] := seats[0] - 1 end;
  entry function look : integer; begin look := seats[0] end;
  entry function peek : text; begin if seats[0] = 0 then peek := 'none' else peek := 'some' end;
  entry procedure open; begin end;
  entry function use(x : text) : text; begin use := x end;
  entry procedure never; begin refuse('never') end;
  entry procedure shut(x : text); begin append(log, x) end;
  entry procedure clear; begin take(log) end;
  entry function length : integer; begin length := count(log) end;
  entry function last : text; begin last := first(log) end;
end;
""",
        [
            Bound(3, Any(Burst(Any("look", Bound(2, Sequence("peek", "leave")))), "come")),
            Bound(1, Any("come", "leave", Burst(Any("look", "peek")))),
            Bound(2, Sequence(Bound(1, "open"), Burst(Any("use", Bound(1, "never"))), "shut")),
            Bound(1, Any("shut", "clear", Burst(Any("length", "last")))),
            Any(
                Burst(Sequence(Bound(3, Any("use", "look")), "clear")),
                Bound(2, Any("come", Sequence("leave", Burst(Bound(2, "length"))))),
            ),
        ],
        {"seats": Array(1, "integer"), "log": Queue("text")},
        {
            "come": ((SMALL,), ("seats",), hall_come, 2),
            "leave": ((), ("seats",), hall_leave),
            "look": ((), ("seats",), lambda c: c["seats"][0]),
            "peek": ((), ("seats",), lambda c: "none" if c["seats"][0] == 0 else "some"),
            "open": ((), (), lambda c: None, 2),
            "use": ((TEXTS,), (), lambda c, x: x),
            "never": ((), (), hall_never),
            "shut": ((TEXTS,), ("log",), lambda c, x: append(c["log"], x), 3),
            "clear": ((), ("log",), hall_clear),
            "length": ((), ("log",), lambda c: len(c["log"])),
            "last": ((), ("log",), lambda c: first(c["log"])),
        },
    ),
)

# Objects with holds.
HOLDING = (
    Object(
        "slots",
        """object slots;
  const most = 2;
  path most:(grab; free) end;
  path 1:(grab, free, [inside]) end;
  path 1:(free, (freeze; thaw)) end;
  var v : array [1] of integer;
  entry procedure grab; begin v[0] := v[0] + 1 end;
  entry procedure free; begin v[0] := v[0] - 1 end;
  entry function inside : integer; begin inside := v[0] end;
  entry procedure freeze; begin end;
  entry procedure thaw; begin end;
  hold grab until free;
  hold freeze until thaw by any;
end;
""",
        [Bound(2, Sequence("grab", "free")), Bound(1, Any("grab", "free", Burst("inside"))), Bound(1, Any("free", Sequence("freeze", "thaw")))],
        {"v": Array(1, "integer")},
        {
            "grab": ((), ("v",), one_more, 6),
            "free": ((), ("v",), lambda c: set_element(c["v"], 0, whole(c["v"][0] - 1)), 2),
            "inside": ((), ("v",), lambda c: c["v"][0]),
            "freeze": ((), (), lambda c: None),
            "thaw": ((), (), lambda c: None),
        },
        (Hold("grab", ["free"]), Hold("freeze", ["thaw"], True)),
    ),
    Object(
        "jobs",
        """object jobs;
  path 1:(submit, claim, finish, give_back) end;
  var line : queue of text;
      tally : array [1] of integer;
  entry procedure submit(x : text); begin append(line, x) end;
  entry function claim : text; begin claim := first(line); take(line) end;
  entry procedure finish(x : text); begin if x = 'it''s' then refuse('never'); tally[0] := tally[0] + 1 end;
  entry procedure give_back(x : text); begin append(line, x) end;
  hold claim until give_back, finish;
end;
""",
        [Bound(1, Any("submit", "claim", "finish", "give_back"))],
        {"line": Queue("text"), "tally": Array(1, "integer")},
        {
            "submit": ((("a", "a", "it's", ""),), ("line",), lambda c, x: append(c["line"], x), 5),
            "claim": ((), ("line",), jobs_claim, 5),
            "finish": ((("a", "it's"),), ("tally",), jobs_finish),
            "give_back": ((("a", ""),), ("line",), lambda c, x: append(c["line"], x)),
        },
        (Hold("claim", ["give_back", "finish"]),),
    ),
    Object(
        "seats",
        """object seats;
  path 1:(book, cancel, pay, [holder]) end;
  path 1:(lead; resign) end;
  var who : array [3] of text;
  entry procedure book(seat : integer; name : text);
  begin if who[seat] <> '' then refuse('taken'); who[seat] := name end;
  entry procedure cancel(seat : integer; name : text);
  begin if who[seat] <> name then refuse('other'); who[seat] := '' end;
  entry procedure pay(seat : integer; name : text); begin end;
  entry function holder(seat : integer) : text; begin holder := who[seat] end;
  entry function lead(x : integer) : integer; begin lead := x + 1 end;
  entry procedure resign(x, y : integer); begin end;
  hold book until cancel, pay by any;
  hold lead until resign;
end;
""",
        [Bound(1, Any("book", "cancel", "pay", Burst("holder"))), Bound(1, Sequence("lead", "resign"))],
        {"who": Array(3, "text")},
        {
            "book": (((0, 1, 2, 2, 3), ("a", "b")), ("who",), seats_book, 5),
            "cancel": (((0, 1, 2), ("a", "b")), ("who",), seats_free),
            "pay": (((0, 1, 2), ("a", "b")), (), lambda c, i, x: None),
            "holder": (((0, 2, 3),), ("who",), lambda c, i: element(c["who"], i)),
            "lead": (((0, 7, MOST),), (), lambda c, x: whole(x + 1), 2),
            "resign": (((0, 7), (1, 8)), (), lambda c, x, y: None),
        },
        (Hold("book", ["cancel", "pay"], True), Hold("lead", ["resign"])),
    ),
)
