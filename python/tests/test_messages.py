"""Messages, and what is told of them."""
import numpy
import pytest

from linthofer import Collision, Machine, Message, NotArrived, Refused


def used(machine):
    """The same machine, with ones where messages stand and in the flags that a send uses, as a text may leave them."""
    ones = "\n".join(f"field used{at} {at} 64\nconst used{at} {2**64 - 1}" for at in (3968, 4032))
    machine.ask(ones + "\nset 7\nset 12\nset 14")
    return machine


def test_a_permutation_arrives(four, draw):
    used(four)
    value, to, numbers = four.field(32), four.field(8), draw(four, 2**32)
    value[:], to[:] = numbers, range(255, -1, -1)
    came = four.send(value, to)
    assert came.value.list() == numbers[::-1] and set(came.arrived) == {1}
    assert four.standing() == four.asking() == 0 and came.cycles == four.cycles


@pytest.mark.parametrize("dims, room", [(0, 7), (1, 1), (5, 7)])
def test_machines_of_all_kinds(draw, dims, room):
    with Machine(dims=dims, room=room) as machine:
        numbers = draw(machine, 2**16)
        value = machine.field(16)
        value[:] = numbers
        came = machine.send(value, machine.place() ^ 1)
        assert came.value.list() == [numbers[place ^ 1] for place in range(machine.size)]


COMBINED = [("add", lambda numbers: sum(numbers) % 2**24), ("max", max), ("min", min),
            ("or", lambda numbers: numbers[0] | or_of(numbers[1:]) if numbers else 0)]


def or_of(numbers):
    found = 0
    for number in numbers:
        found |= number
    return found


@pytest.mark.parametrize("word, does", COMBINED)
def test_what_comes_together_is_combined(four, draw, word, does):
    used(four)
    value, to, numbers, receivers = four.field(16), four.field(8), draw(four, 2**16), draw(four, 8)
    value[:], to[:] = numbers, receivers
    came = four.send(value, to, combine=word, bits=24)
    for at in range(8):
        assert came.value[0, at] == does([number for number, it in zip(numbers, receivers) if it == at])
    assert came.value.list()[8:] == [2**24 - 1 if word == "min" else 0] * 248
    assert came.arrived.list() == [1] * 8 + [0] * 248


def filled(machine, numbers):
    field = machine.field(16)
    field[:] = numbers
    return field


def test_assignments_by_place_are_those_of_numpy(four, draw):
    numbers, before, receivers = draw(four, 2**12), draw(four, 2**12), draw(four, 256)
    x, y, to = filled(four, numbers), filled(four, before), four.place()
    expected = numpy.array(before)
    with four.where(to < 100):
        came = four.send(x, to ^ 255)
    with four.where(came.arrived):
        y[:] = came.value
    expected[255 - numpy.arange(100)] = numbers[:100]
    assert y.list() == expected.tolist()
    to[:] = receivers
    y, expected = filled(four, before), numpy.array(before)
    y += four.send(x, to, combine="add").value
    numpy.add.at(expected, receivers, numbers)
    assert y.list() == expected.tolist()
    y, expected = filled(four, before), numpy.array(before)
    came = four.send(x, to, combine="max")
    with four.where(came.arrived & (came.value > y)):
        y[:] = came.value
    numpy.maximum.at(expected, receivers, numbers)
    assert y.list() == expected.tolist()


def test_the_last_that_came_is_one_of_them(four, draw):
    value, to, numbers, receivers = four.field(16), four.field(8), draw(four, 2**16), draw(four, 8)
    value[:], to[:] = numbers, receivers
    came = four.send(value, to, combine="last")
    for at in range(8):
        assert came.value[0, at] in [number for number, it in zip(numbers, receivers) if it == at]


def test_a_collision_is_told_wherever_it_is(four):
    with pytest.raises(Collision):
        four.send(four.place(), to=3)
    with pytest.raises(Collision):
        with four.where(four.place() > 200):
            four.send(four.place(), to=3)


def test_who_is_not_meant_does_not_send(four):
    used(four)
    with four.where(four.place() == 200):
        came = four.send(four.place(), to=3)
    assert came.value[0, 3] == 200 and sum(came.arrived) == 1


def test_nobody_sends(four):
    with four.where(four.place() != four.place()):
        came = four.send(four.place(), to=3)
    assert came.cycles == 1 and sum(came.arrived) == 0


def test_messages_that_do_not_arrive_are_told(four):
    with pytest.raises(NotArrived, match="after 2 petit cycles"):
        four.send(four.place(), to=3, combine="add", most=2)
    with pytest.raises(NotArrived, match="of before"):
        four.send(four.place(), to=3, combine="add")


WRONG = [(Refused, lambda m: m.send(m.field(33), to=3)),
         (Refused, lambda m: m.send(m.field(8), to=3, bits=33)),
         (Refused, lambda m: m.send(m.field(8), to=256)),
         (TypeError, lambda m: m.send(5, to=3)),
         (Refused, lambda m: m.send(m.field(8), to=m.field(9))),
         (ValueError, lambda m: m.send(m.field(8), to=3, bits=7)),
         (ValueError, lambda m: m.send(m.field(8), to=3, combine="sum")),
         (ValueError, lambda m: m.send(m.field(8), to=3, most=0))]


@pytest.mark.parametrize("kind, does", WRONG)
def test_what_cannot_be_sent_is_refused(four, kind, does):
    with pytest.raises(kind):
        does(four)
    assert four.cycles == 0


def test_what_is_too_long_is_sent_in_two_parts(four, draw):
    value, numbers = four.field(40), draw(four, 2**40)
    value[:], to = numbers, four.place() ^ 1
    with pytest.raises(Refused, match=r"32 bits, not 40: send two parts, x.part\(0, 32\) and x.part\(32, 40\)"):
        four.send(value, to)
    low, high = (four.send(part, to).value.list() for part in (value.part(0, 32), value.part(32, 40)))
    assert [a + (b << 32) for a, b in zip(low, high)] == [numbers[place ^ 1] for place in range(256)]


def test_sums_that_do_not_fit_are_lost(four):
    one = four.field(4)
    one[:] = 1
    assert four.send(one, to=3, combine="add").value[0, 3] == 0                 # 256 has nine bits
    assert four.send(one, to=3, combine="add", bits=9).value[0, 3] == 256


def test_messages_know_where_they_stand_and_where_they_go():
    with Machine(dims=2) as machine:
        machine.ask("field rel 3968 16\nconst rel 3\nset 12\ncycle")
        messages = machine.messages()
        assert [sum(it.at == chip for it in messages) for chip in range(4)] == machine.buffers()
        assert any(it.at != it.chip for it in messages) and all(it.to_chip == it.chip ^ 3 for it in messages)


def test_messages_are_told_as_the_debugger_tells_them():
    with Machine(dims=0) as machine:                    # the example of docs/DEBUGGER.md, "Messages"
        machine.ask("pokeflag 0 3 12 1\npokeflag 0 4 12 1\ncycle")
        waits = Message(0, "msg", 0, 0, 0, 0, 4, 0)
        assert machine.messages() == machine.messages(0) == [waits] and machine.buffers() == [1]
        assert (waits.to_chip, waits.tag) == (0, (0, 4, 0))
        assert machine.find(0, 3, 0) == ("delivered", 0, 0) and machine.find(0, 4, 0) == ("router", 0)
        assert [(it.word, it.processor) for it in machine.events(0)] == [("in", 3), ("in", 4), ("out", 3)]
        assert machine.flag(14) == [1] + [0] * 15
        machine.forget()
        assert machine.events(0) == [] and machine.find(0, 3, 0) == ("unknown",)
        machine.ask("clear 14")
        machine.cycle()
        assert machine.standing() == 0 and machine.cycles == 2
