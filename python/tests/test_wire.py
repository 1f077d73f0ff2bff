"""What goes over the pipes, and what happens when something goes wrong there."""
import os
import signal

import pytest

from linthofer import Failed, Machine, Refused, Unavailable
from linthofer.wire import PIPE_BYTES, Front, command, pieces


def test_answers_with_several_lines_do_not_shift_the_others(four):
    four.ask("pokeflag 0 3 12 1\npokeflag 0 4 12 1\ncycle")
    told = four.ask("buf 0\nfield 0 0 0 8\nevents 0\nget buffers\nwire show")
    assert [answer.split("\n")[0] for answer in told] == ["buf 1", "field 0", "events 3", "numbers 4", "wire 0"]


def test_more_than_the_pipes_hold(four):
    assert four.ask("field 0 5 0 64\n" * 30_000) == ["field 0"] * 30_000
    assert four.ask("buf 3\n" * 20_000) == ["buf 0"] * 20_000


def test_one_front_end_takes_more_than_the_longest_line(four):
    four.ask("pokeflag 0 3 12 1\ncycle\nclear 14")
    x, numbers = four.field(64), " ".join(["18446744073709551615"] * 256)
    with four.where(four.place() < 5):
        x[:] = 1
        four.ask(f"put {x.at} 64 {numbers}\n" * 3_200)                  # 17 MB; a line may have 16,777,216 bytes
        x += 2
    assert x.list() == [1] * 5 + [2**64 - 1] * 251
    assert four.find(0, 3, 0) == ("delivered", 0, 0)


def test_a_line_that_is_too_long_ends_the_front_end(four):
    with pytest.raises(Failed, match="more than 16777216 bytes"):
        four.ask("x" * 16_777_217)
    for does in four.wire, four.close:
        with pytest.raises(Unavailable, match="has ended"):
            does()


def test_pieces_are_what_a_pipe_holds():
    lines = ["x" * length for length in (10, PIPE_BYTES - 12, 1, PIPE_BYTES, 200_000, 5)]
    assert [[len(line) for line in piece] for piece in pieces(lines)] == [
        [10, PIPE_BYTES - 12], [1], [PIPE_BYTES], [200_000], [5]]


def test_a_line_that_is_longer_than_a_pipe(draw):
    with Machine(dims=8) as machine:
        x, numbers = machine.field(64), draw(machine, 2**64)
        x[:] = numbers
        assert x.list() == numbers


def test_a_refusal_tells_what_the_document_tells(four):
    with pytest.raises(Refused) as told:
        four.ask("mul x y z")
    assert (told.value.number, told.value.name) == (18, "Name")
    assert "put the `field` line before the lines that use the name" in str(told.value) and "mul x y z" in str(told.value)


def test_a_refusal_says_what_python_knows_in_place_of_advice():
    assert "what to do: define the fields with one length" in str(Refused(11, "add x y"))
    assert str(Refused(11, "add x y", "8 bits beside 9")).splitlines()[0] == "add x y: 8 bits beside 9"
    assert "what to do" not in str(Refused(11, "add x y", "8 bits beside 9"))


def test_after_a_refusal_the_next_line_is_answered_rightly(four):
    x = four.field(8)
    x[:] = 1
    with pytest.raises(Refused) as told:
        four.ask("field 0 0 0 8\njump\nif 3\nfield 0 1 0 8")
    assert told.value.line == "jump"
    x += 1
    assert x[0, 1] == 2


def test_the_first_of_two_refusals_is_told(four):
    with pytest.raises(Refused) as told:
        four.ask("sense\nhop\nadd x")
    assert (told.value.number, told.value.line) == (15, "hop")


def test_a_line_that_waited_is_told_with_the_next_question(four):
    four.lines.tell("poke 0 0 0 2")
    x = four.field(8)
    with pytest.raises(Refused) as told:
        x[:] = 3
        x[0, 0]
    assert (told.value.number, told.value.line) == (2, "poke 0 0 0 2")
    x[:] = 4
    assert x[0, 0] == 4


def test_names_in_lines_that_did_not_go_out_are_told_again(four):
    x = four.field(8)
    with pytest.raises(Refused):                        # two pieces: the refusal is in the first, the name in the other
        four.lines.tell("jump", *["poke 0 0 0 0"] * 6000, f"field f{x.at}_8 {x.at} 8")
    x[:] = 5
    assert x[0, 0] == 5


def test_a_context_that_did_not_go_out_is_told_again(four):
    x = four.field(8)
    x[:] = 0
    four.lines.ask("if 3")
    with pytest.raises(Refused):                        # the refusal is in the first piece, `always` in the other
        four.lines.tell("jump", *["poke 0 0 0 0"] * 6000, "always")
    x[:] = 5
    assert set(x) == {5}


def test_an_interrupted_question_leaves_no_answer_behind(four, monkeypatch):
    read_answer, once = Front._read_answer, iter([True])

    def read_answer_and_press_ctrl_c(front):
        if next(once, False):
            os.kill(os.getpid(), signal.SIGINT)
        return read_answer(front)

    before = signal.getsignal(signal.SIGINT)
    monkeypatch.setattr(Front, "_read_answer", read_answer_and_press_ctrl_c)
    with pytest.raises(KeyboardInterrupt):
        four.ask("field 0 5 0 64\n" * 4000)
    assert signal.getsignal(signal.SIGINT) is before
    assert four.ask("wire show\nrule") == ["wire 0", "rule 0"]


def test_a_text_may_come_again(four):
    text = "field a 100 8\nconst a 3     ; a remark\n\nif 3\nconst a 4"
    assert four.ask(text) == ["ok"] * 4 and four.ask(text) == ["ok"] * 3
    with pytest.raises(Refused) as told:
        four.ask("field a 100 9")
    assert told.value.number == 19


def test_a_source_is_judged_whole(four):
    four.run("field a 100 8\nconst a 0\nrepeat 5\nadd a 3\nend")
    assert four.ask("field 0 0 100 8") == ["field 15"]
    with pytest.raises(Failed, match="the source: line 3: unknown first word"):
        four.run("field a 100 8\nconst a 1\nhop")
    with pytest.raises(Refused):
        four.run("field c 0 8\nconst c 1\nfield a 100 9")
    assert four.ask("field 0 0 100 8\nfield 0 0 0 8") == ["field 15", "field 0"]


# ---- images

def test_images(four, tmp_path):
    x = four.field(16)
    x[:] = range(four.size)
    four.cycle(3)
    four.save(tmp_path / "a.image")
    with Machine.load(tmp_path / "a.image") as again:
        assert again.field(16, at=x.at).list() == list(range(256)) and again.cycles == 3
        assert (again.dims, again.room, again.rule) == (4, 7, 0)
        assert (again.chips, again.size, again.shape) == (16, 256, (16, 16))
        assert again.image() == (tmp_path / "a.image").read_bytes()
    assert os.listdir(tmp_path) == ["a.image"]


def test_shapes_of_machines(tmp_path):
    with Machine(dims=1, room=1, rule=1, cut=[(0, 0)]) as machine:
        assert (machine.dims, machine.room, machine.rule, machine.shape) == (1, 1, 1, (8, 4))
        assert machine.image()[4:8] == bytes([2, 1, 1, 1])           # docs/FORMATS.md, "Images"


NONE = [b"", b"no image at all, but long enough"]


@pytest.mark.parametrize("content", NONE)
def test_a_file_that_is_no_image(tmp_path, content):
    (tmp_path / "a.image").write_bytes(content)
    with pytest.raises(Failed):
        Machine.load(tmp_path / "a.image")


def test_machines_that_there_are_not():
    with pytest.raises(Failed):
        Machine(dims=13)
    with pytest.raises(ValueError, match="Machine has room 1 or 7, not 2; load_curve takes 1 to 15"):
        Machine(room=2)
    with pytest.raises(Failed, match="no/such.image") as told:
        Machine.load("no/such.image")
    assert told.value.status == 4


def test_an_image_is_saved_whole_or_not_at_all(four, tmp_path):
    (tmp_path / "folder").mkdir()
    with pytest.raises(OSError):
        four.save(tmp_path / "folder")
    assert os.listdir(tmp_path) == ["folder"]


def test_a_file_that_was_there_stays_where_saving_fails(four, tmp_path, monkeypatch):
    def fails(*names):
        raise OSError

    (tmp_path / "a.image").write_bytes(b"before")
    monkeypatch.setattr(os, "replace", fails)
    with pytest.raises(OSError):
        four.save(tmp_path / "a.image")
    assert os.listdir(tmp_path) == ["a.image"] and (tmp_path / "a.image").read_bytes() == b"before"


def test_a_front_end_that_is_abandoned_leaves_no_image(four, tmp_path):
    four.save(tmp_path / "a.image")
    for name, end in ("closed", Front.close), ("abandoned", Front.abandon):
        front = Front(str(tmp_path / "a.image"), str(tmp_path / name))
        front.ask(["sense"])
        end(front)
    assert sorted(os.listdir(tmp_path)) == ["a.image", "closed"]


# ---- its end

def test_a_closed_machine_answers_no_more(four):
    four.close()
    four.close()
    with pytest.raises(Unavailable):
        four.cycles
    assert repr(four) == "<Machine, closed>"


def test_a_front_end_that_has_ended_is_told(four):
    four.lines.front._process.kill()
    with pytest.raises(Unavailable, match="has ended"):
        four.wire()
    four.lines.abandon()


def test_an_older_front_end_is_told(tmp_path, monkeypatch):
    older = tmp_path / "cm1lab"
    older.write_text("#!/bin/sh\nread line\necho '? 15'\n")
    older.chmod(0o755)
    monkeypatch.setenv("CM1LAB", str(older))
    with pytest.raises(Unavailable, match="older than the package"):
        Machine.load(tmp_path / "a.image")


def test_programs_that_are_not_there_are_told(monkeypatch):
    monkeypatch.delenv("CM1LAB", raising=False)
    monkeypatch.setenv("PATH", "/nowhere")
    with pytest.raises(Unavailable, match="cm1lab is not on the path"):
        command("cm1lab", "--help")
