"""Parallel variables beside lists of whole numbers."""
import operator

import numpy
import pytest

from linthofer import Machine, Refused, Unavailable

OPERATORS = ["add", "sub", "mul", "and_", "or_", "xor"]
COMPARISONS = ["lt", "le", "gt", "ge", "eq", "ne"]


# ---- expressions

@pytest.mark.parametrize("bits", [1, 7, 16, 64])
@pytest.mark.parametrize("word", OPERATORS)
def test_operators_agree_with_whole_numbers(four, draw, word, bits):
    does, below = getattr(operator, word), 2**bits
    one, other, number = draw(four, below), draw(four, below), below * 2 // 3
    x, y = four.field(bits), four.field(bits)
    x[:], y[:] = one, other
    assert does(x, y).list() == [does(a, b) % below for a, b in zip(one, other)]
    assert does(x, number).list() == [does(a, number) % below for a in one]
    assert does(number, x).list() == [does(number, a) % below for a in one]
    assert (x.list(), y.list()) == (one, other)


@pytest.mark.parametrize("bits", [1, 3, 16])
@pytest.mark.parametrize("word", COMPARISONS)
def test_comparisons_are_fields_of_one_bit(four, draw, word, bits):
    does = getattr(operator, word)
    one, other, number = draw(four, 2**bits), draw(four, 2**bits), 2**bits // 2
    x, y = four.field(bits), four.field(bits)
    x[:], y[:] = one, other
    assert does(x, y).list() == [int(does(a, b)) for a, b in zip(one, other)]
    assert does(x, number).list() == [int(does(a, number)) for a in one]
    assert does(x, y).bits == 1


@pytest.mark.parametrize("places", [0, 1, 3, 8, 9, 100])
def test_shifts_agree_with_whole_numbers(four, draw, places):
    x, one = four.field(9), draw(four, 512)
    x[:] = one
    assert (x << places).list() == [(a << places) % 512 for a in one]
    assert (x >> places).list() == [a >> places for a in one]


def test_parts_and_copies(four, draw):
    x, one = four.field(12), draw(four, 4096)
    x[:] = one
    copy, wide = x.copy(), x.widened(20)
    assert (~x).list() == [4095 - a for a in one]
    assert x.part(4, 8).list() == [a >> 4 & 15 for a in one]
    x.part(4, 12)[:] = 0
    assert x.list() == [a & 15 for a in one]
    assert copy.list() == wide.list() == one


def test_an_expression_may_be_its_own_operand(four, draw):
    x, one = four.field(8), draw(four, 256)
    x[:] = one
    x += x
    x ^= x >> 1
    assert x.list() == [2 * a % 256 ^ 2 * a % 256 >> 1 for a in one]


# ---- conditions

CHANGES = [("iadd", operator.add), ("isub", operator.sub), ("imul", operator.mul), ("iand", operator.and_),
           ("ior", operator.or_), ("ixor", operator.xor), ("ilshift", operator.lshift), ("irshift", operator.rshift)]


@pytest.mark.parametrize("word, does", CHANGES)
def test_changes_are_made_where_the_condition_holds(four, draw, word, does):
    x, one = four.field(16), draw(four, 2**16)
    x[:] = one
    with four.where(x > 20_000):
        x = getattr(operator, word)(x, 3)
    assert x.list() == [does(a, 3) % 2**16 if a > 20_000 else a for a in one]


def test_conditions_nest_and_expressions_do_not_ask_for_them(four, draw):
    x, one = four.field(16), draw(four, 2**16)
    x[:] = one
    with four.where(x > 20_000):
        more = x + 1
        with four.where(x < 40_000):
            x[:] = 0
        assert four.all(x != 1) == all(a != 1 for a in one if a >= 40_000)
        assert four.any(x == 0) == any(20_000 < a < 40_000 for a in one)
    assert more.list() == [(a + 1) % 2**16 for a in one]
    assert x.list() == [0 if 20_000 < a < 40_000 else a for a in one]


EXPRESSIONS = [*(getattr(operator, word) for word in OPERATORS + COMPARISONS),
               *(lambda x, y, word=word: getattr(x, word)() for word in ("north", "south", "west", "east", "chained")),
               lambda x, y: ~x, lambda x, y: x << 1, lambda x, y: x >> 1, lambda x, y: x.copy(),
               lambda x, y: x.widened(9), lambda x, y: x + 5, lambda x, y: 5 - x, lambda x, y: x == 5]


def test_expressions_are_worked_out_in_all_processors(four, draw):
    x, y = four.field(8), four.field(8)
    x[:], y[:] = draw(four, 256), draw(four, 256)
    with four.where(four.place() < 3):
        fields = [does(x, y) for does in EXPRESSIONS]
    for does, field in zip(EXPRESSIONS, fields):
        assert field.list() == does(x, y).list()


def test_data_obey_the_condition_and_put_does_not(four):
    x, y = four.field(9), four.field(9)
    x[:] = y[:] = 0
    with four.where(four.place() < 10):
        x[:] = range(256)
        y.put(range(256))
        x[15, 15] = 300
    assert x.list() == [*range(10), *[0] * 245, 300] and y.list() == list(range(256))


def test_the_condition_ends_after_a_fault(four):
    x = four.field(4)
    x[:] = 1
    with pytest.raises(ZeroDivisionError):
        with four.where(x == 2):
            1 / 0
    x[:] = 3
    assert set(x) == {3}


def test_a_text_within_a_condition_is_done_everywhere(four):
    x = four.field(4)
    x[:] = 0
    with four.where(four.place() == 7):
        four.ask(f"field x {x.at} 4\nconst x 5\nif 3")
        x[:] = 9
    assert x.list() == [5] * 7 + [9] + [5] * 248


def test_conditions_may_come_one_after_another(four):
    x = four.field(8)
    x[:] = 255
    for number in range(20):
        with four.where(four.place() == number):
            x[:] = number
    assert x.list() == [*range(20)] + [255] * 236


def test_seven_conditions_stand_within_one_another(four):
    x = four.field(4)
    x[:] = 0
    with pytest.raises(Unavailable):
        nested(four, x, 8)
    assert x[0, 0] == 7 and x[0, 1] == 0
    x[:] = 1
    assert set(x) == {1}


def nested(machine, x, depth):
    if depth:
        with machine.where(machine.place() == 0):
            x += 1
            nested(machine, x, depth - 1)


# ---- neighbours

@pytest.mark.parametrize("dims", [0, 1, 4, 5])
def test_neighbours_are_shifted_rows(draw, dims):
    with Machine(dims=dims) as machine:
        x = machine.field(9)
        x[:] = draw(machine, 512)
        flat, rows = x.list(), x.numpy(rows=True)
        assert rows.shape == machine.shape and rows.tolist() == x.rows()
        for of, by, axis in (x.north(), 1, 0), (x.south(), -1, 0), (x.west(), 1, 1), (x.east(), -1, 1):
            assert (of.numpy(rows=True) == numpy.roll(rows, by, axis)).all()
        assert x.chained().list() == [0 if at % 16 == 0 else flat[at - 1] for at in range(machine.size)]


def test_rows_are_those_of_the_laboratory():
    with Machine(dims=2) as machine:            # docs/LABORATORY.md shows these rows
        x = machine.field(6)
        x[:] = range(64)
        assert x.rows()[:5:4] == [[0, 1, 2, 3, 16, 17, 18, 19], [32, 33, 34, 35, 48, 49, 50, 51]]


# ---- numbers in and out

def test_rows_go_in_and_out(five):
    x, picture = five.field(16), numpy.arange(512).reshape(five.shape)
    for data in picture, picture.tolist():
        x[:] = data
        assert (x.numpy(rows=True) == picture).all()
    x.put(range(512), rows=True)
    assert (x.numpy(rows=True) == picture).all()


TYPES = [(1, "uint8"), (8, "uint8"), (9, "uint16"), (32, "uint32"), (33, "uint64"), (64, "uint64")]


@pytest.mark.parametrize("bits, kind", TYPES)
def test_arrays_have_the_least_type(four, draw, bits, kind):
    x, one = four.field(bits), draw(four, 2**bits)
    x[:] = numpy.array(one, dtype=kind)
    assert x.numpy().dtype == numpy.array(x).dtype == kind
    assert x.numpy().tolist() == list(x) == one


def test_one_processor(four):
    x = four.field(13)
    x[:] = 0
    x[3, 5] = 4096 + 17
    assert x[3, 5] == x.list()[16 * 3 + 5] == 4113 and sum(x) == 4113
    four.place()[0, 0] = 9
    assert four.place()[0, 0] == 0


def test_truth_is_a_number(four):
    x = four.field(1)
    x[:] = [place == 3 for place in range(256)]
    assert x.list() == [0, 0, 0, 1] + [0] * 252


# ---- the global wire

def test_the_wire_finds_extremes(four, draw):
    x, one = four.field(16), draw(four, 2**16)
    x[:] = one
    assert (x.max(), x.min()) == (max(one), min(one))
    with four.where(x < 1000):
        assert (x.max(), x.min()) == (max(a for a in one if a < 1000), min(one))
    with four.where(x > 65_534):
        assert not four.any(x == x) and four.all(x != x)
        with pytest.raises(ValueError):
            x.max()


# ---- memory

def test_memory_comes_back(four):
    x = four.field(16)
    x[:] = 0
    for _ in range(2000):
        x = x + 1
    assert x[0, 5] == 2000 and len(four.lines.front.fields) < 10


def test_a_part_keeps_the_whole(four):
    part = four.field(64).part(60, 64)
    part[:] = 9
    for number in range(100):
        four.field(4)[:] = number % 16
    assert set(part) == {9}


def test_memory_ends(four):
    kept = [four.field(64) for _ in range(62)]
    with pytest.raises(MemoryError, match="no 1 of the 3968"):
        four.field(1)
    del kept[5]
    assert four.field(64).bits == 64


def test_fields_of_a_text_are_left_alone(four):
    four.ask("field low 0 64\nfield high 3904 0x40")
    assert four.field(64).at == 3904 - 64
    assert four.field(8, at=100).at == 100


def test_bits_that_a_text_named_are_lent_no_more(four):
    x = four.field(16)
    at = x.at
    four.ask(f"field kept {at} 16")
    del x
    assert four.field(16).at != at


# ---- what is refused where it is written

def overlapping(x):
    x.part(0, 4)[:] = x.part(2, 6)


REFUSED = [(1, lambda x: x.machine.field(65)),
           (1, lambda x: x.machine.field(0)),
           (2, lambda x: x.machine.field(8, at=4090)),
           (2, lambda x: x[16, 0]),
           (2, lambda x: x[0, -1]),
           (10, overlapping),
           (11, lambda x: x + x.part(0, 4)),
           (11, lambda x: x == 256),
           (11, lambda x: x - (-1)),
           (11, lambda x: x.put([256] * 256)),
           (11, lambda x: x.put([-1] * 256)),
           (11, lambda x: x.__setitem__((0, 0), 256))]


@pytest.mark.parametrize("number, does", REFUSED)
def test_what_cannot_be_is_refused(four, number, does):
    x = four.field(8)
    x[:] = 5
    with pytest.raises(Refused) as told:
        does(x)
    assert told.value.number == number and set(x) == {5}


WRONG = [(TypeError, lambda x: bool(x == 1)),
         (TypeError, lambda x: x + 1.5),
         (TypeError, lambda x: x + numpy.ones(256)),
         (TypeError, lambda x: numpy.ones(256, int) + x),
         (TypeError, lambda x: x.put([0.5] * 256)),
         (TypeError, lambda x: x[3]),
         (TypeError, lambda x: x.machine.any(x)),
         (ValueError, lambda x: x.put([1, 2])),
         (ValueError, lambda x: x.put(numpy.ones((8, 32), int))),
         (ValueError, lambda x: x.part(3, 9)),
         (ValueError, lambda x: x << -1),
         (ValueError, lambda x: x.widened(7)),
         (IndexError, lambda x: x.__setitem__(slice(0, 5), 1))]


@pytest.mark.parametrize("kind, does", WRONG)
def test_what_means_nothing_is_an_error_of_python(four, kind, does):
    x = four.field(8)
    with pytest.raises(kind):
        does(x)


def test_numbers_of_numpy_are_numbers(four):
    x = four.field(8)
    x[:] = numpy.uint8(7)
    assert set(numpy.int64(2) * x + numpy.int64(3)) == {17}


# ---- a field belongs to the machine that made it

MEANT_HERE = [*[lambda m, x, word=word: getattr(operator, word)(x, m.field(8)) for word in OPERATORS + COMPARISONS],
              *[lambda m, x, word=word: getattr(operator, word)(m.field(8), x) for word in OPERATORS + COMPARISONS],
              *[lambda m, x, word=word: getattr(operator, word)(m.field(8), x)
                for word in ("iadd", "isub", "imul", "iand", "ior", "ixor")],
              lambda m, x: m.field(8).__setitem__(slice(None), x),
              lambda m, x: m.where(x == 1).__enter__(),
              lambda m, x: m.any(x == 1),
              lambda m, x: m.all(x == 1),
              lambda m, x: m.send(x, to=m.place()),
              lambda m, x: m.send(m.field(8), to=x)]


@pytest.mark.parametrize("does", MEANT_HERE)
def test_a_field_of_another_machine_is_refused(four, does):
    with Machine(dims=4) as other:
        x = other.field(8)
        x[:] = 1
        with pytest.raises(ValueError, match=r"belongs to another machine .* y\[:\] = x\.list\(\)"):
            does(four, x)
        assert set(x) == {1} and four.cycles == 0


def test_a_field_of_a_closed_machine_is_told_in_the_same_words(four):
    with Machine(dims=4) as other:
        x = other.field(8)
    for does in MEANT_HERE[6], MEANT_HERE[0]:
        with pytest.raises(ValueError, match="belongs to another machine"):
            does(four, x)


def test_numbers_go_from_one_machine_to_another(four, draw):
    with Machine(dims=4) as other:
        x, y = other.field(8), four.field(8)
        x[:] = numbers = draw(other, 256)
        y[:] = x.list()
        assert y.list() == numbers


# ---- what is told says what to write

TOLD = [(Refused, "widened\\(16\\)", lambda x: x + x.machine.field(16)),
        (Refused, "16 bits beside 8", lambda x: x.machine.field(16) * x),
        (Refused, "300 for place 17, which is \\[1, 1\\]; a field of 8 bits has 0 to 255",
         lambda x: x.put([0] * 17 + [300] * 239)),
        (Refused, "-1 for place 16, which is \\[1, 0\\]", lambda x: x.put([0] * 4 + [-1] + [0] * 251, rows=True)),
        (Refused, "^\\[99, 0\\]: chips of this machine are 0 to 15", lambda x: x[99, 0]),
        (Refused, "^the number 256: a field of 8 bits has 0 to 255", lambda x: x + 256),
        (TypeError, "no masks in brackets: with m.where\\(mask\\)", lambda x: x[x == 3]),
        (TypeError, "no masks in brackets", lambda x: x.__setitem__(x == 3, 1)),
        (TypeError, "no masks in brackets", lambda x: x.__setitem__(numpy.ones(256, bool), 1)),
        (TypeError, "x.list\\(\\)", lambda x: x[:]),
        (TypeError, "x\\[chip, processor\\]", lambda x: x[1, 2, 3]),
        (TypeError, "write x >> 3 for x // 8", lambda x: x // 8),
        (TypeError, "write x >> 0 for x / 1", lambda x: x / 1),
        (TypeError, "write x & 7 for x % 8", lambda x: x % 8),
        (TypeError, "no division but by", lambda x: x // 10),
        (TypeError, "no division but by", lambda x: x % x),
        (TypeError, "no division but by", lambda x: 8 // x),
        (TypeError, "the same in all processors, not by Field", lambda x: x << x),
        (TypeError, "data.astype\\(int\\) makes them: 'float'", lambda x: x.put(numpy.ones(256))),
        (TypeError, "no signs", lambda x: -x),
        (TypeError, "this has 8 bits", lambda x: x.machine.any(x)),
        (AttributeError, "write sum\\(x\\), or m.send", lambda x: x.sum()),
        (AttributeError, "write m.shape", lambda x: x.shape),
        (AttributeError, "has no words$", lambda x: x.words)]


@pytest.mark.parametrize("kind, text, does", TOLD)
def test_errors_say_what_to_write(four, kind, text, does):
    x = four.field(8)
    x[:] = 5
    with pytest.raises(kind, match=text):
        does(x)
    assert set(x) == {5}


def test_a_mask_that_changes_in_its_own_where_says_what_it_said(four):
    mask, x = four.place() < 3, four.field(4)
    x[:] = 0
    with four.where(mask):
        mask[:] = 0
        x[:] = 1
    assert x.list() == [1] * 3 + [0] * 253 and not four.any(mask)
