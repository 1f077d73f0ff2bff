"""Studies, routes, loads and pictures; what they are to tell stands in docs/LABORATORY.md."""
import pathlib

import pytest

from linthofer import Failed, Machine, Refused, Route, Svg, Table, acts_of, expand, load_curve, plot_of
from linthofer.wire import command

EXAMPLES = pathlib.Path(__file__).resolve().parents[2] / "examples"
HOT_SPOT = (EXAMPLES / "hot_spot" / "program.txt").read_text()


def hot_spot(cut=()):
    """The machine of "Studies of the router": each chip's number stands in its processor 0."""
    machine = Machine(dims=4, cut=cut)
    machine.field(4, at=0).put([place // 16 if place % 16 == 0 else 0 for place in range(256)])
    return machine


def test_a_study_by_petit_cycles():
    with hot_spot() as machine:
        table = machine.study(HOT_SPOT)
        assert table.columns == ["cycle", "taken", "delivered", "referred", "standing", "full", "asking"]
        assert table.column("taken") == [16] + [0] * 7
        assert table.column("delivered") == [5, 3, 3, 3, 1, 1, 0, 0]
        assert table[1] == dict(zip(table.columns, [1, 0, 3, 0, 8, 0, 0]))
        assert machine.cycles == 0


def test_a_study_by_messages_and_a_route():
    with hot_spot(cut=[(0, 0), (0, 1), (0, 2)]) as machine:
        table = machine.study(HOT_SPOT, messages=True)
        assert list(table[5].values()) == [15, 0, 0, 0, 15, 4, 4, 0]
        assert table[7]["delivered"] is None
        route = machine.route((15, 0, 0), HOT_SPOT)
        assert route.chips() == [15, 14, 10, 8, 0] and len(route) == 5
        assert route[0] == "cycle 0: 15 -> 14 -> 10, place 1 of 1"
        assert "<svg" in route.plot().text and "<svg" in route._repr_html_() and "15 -> 14" in str(route)
        with pytest.raises(Failed, match="the program: no such message"):
            machine.route((3, 1, 0), HOT_SPOT)


def test_a_part_of_a_route_and_why_the_message_waits():
    with hot_spot(cut=[(0, 0), (0, 1), (0, 2)]) as machine:
        route = machine.route((15, 0, 0), HOT_SPOT, why=True, first=2, last=3)
        assert route == ["cycle 2: 8, stays, place 2 of 3, waits in 3 behind 10 0 0",
                         "cycle 3: 8, stays, place 1 of 2, waits in 3 behind 12 0 0",
                         "stands at 8, for processor 15 of chip 0"]
        assert route.chips() == [8] and route.plot(last=2).text != route.plot().text
        with pytest.raises(Failed, match="no petit cycle"):
            route.plot(first=4)


def test_studies_of_other_rooms():
    with hot_spot() as machine:
        assert [machine.study(HOT_SPOT, room=room)[0]["delivered"] for room in (1, 2, 3, 7)] == [1, 2, 3, 5]
        route = machine.route((3, 0, 0), HOT_SPOT, room=1)
        assert route[0] == "cycle 0: 3 -> 2 -> 0 -> 4 -> 12, referred in 2, referred in 3, place 1 of 1"
        with pytest.raises(Failed, match="1 to 15 messages"):
            machine.study(HOT_SPOT, room=16)


def test_a_route_may_come_to_a_chip_again():
    told = ["cycle 3: 5 -> 7, place 1 of 2", "cycle 4: 7, stays, place 1 of 2", "cycle 5: 7 -> 5 -> 1, place 1 of 1"]
    assert Route("\n".join(told)).chips() == [5, 7, 5, 1]


def test_a_curve_of_loads(tmp_path):
    table = load_curve(8, 7, [0.5, 1], 400)
    assert table.csv.splitlines()[1:] == ["0.50,51084,51084,51010,0.498,1.40,2,5,0",
                                          "1.00,102128,102127,101868,0.994,1.89,3,6,1"]
    assert table.column("mean") == [1.4, 1.89]
    table.save(tmp_path / "table.csv")
    table.plot().save(tmp_path / "table.svg")
    assert (tmp_path / "table.csv").read_text() == table.csv and (tmp_path / "table.svg").read_text().startswith("<svg")
    with pytest.raises(KeyError, match="there are rate"):
        table.column("latency")
    with pytest.raises(Failed):
        load_curve(8, 7, [17], 400)


RATES = [(1, "1.00"), ([0.25], "0.25"), ((2,), "2.00"), ([0.1 + 0.2], "0.30"), (0, "0.00")]


@pytest.mark.parametrize("rates, told", RATES)
def test_rates_have_two_digits(rates, told):
    assert load_curve(2, 2, rates, 5).csv.splitlines()[1].startswith(told + ",")


SAID = [{"rule": 1}, {"pattern": "reversal"}, {"pattern": "hotspot", "background": 30}, {"until": 20},
        {"table": "crossings"}, {"table": "dimensions"}, {"table": "chips"}, {"table": "latencies"}, {"seed": 2}]


@pytest.mark.parametrize("given", SAID)
def test_what_is_said_of_a_load_is_told(given):
    words = [word for name, it in given.items() for word in (f"--{name}", it)]
    told = command("cm1lab", "load", 6, 2, "3.00", 60, *words).decode()
    assert load_curve(6, 2, 3, 60, **given).csv == told != load_curve(6, 2, 3, 60).csv


def test_places_of_ones_own():
    transposed = [place // 8 + place % 8 * 8 for place in range(64)]
    assert load_curve(2, 7, 2, 60, places=transposed).csv == load_curve(2, 7, 2, 60, pattern="transpose").csv
    with pytest.raises(Failed, match="places: only 63 numbers"):
        load_curve(2, 7, 2, 60, places=transposed[1:])


@pytest.mark.parametrize("rate", [0.125, 0.001, -1, float("nan"), float("inf")])
def test_other_rates_are_refused(rate):
    with pytest.raises(ValueError, match="at most two digits behind the point"):
        load_curve(2, 7, [1, rate], 5)


def test_a_table_of_ones_own_has_a_curve_for_each_column():
    svg = plot_of("rate:petit cycles,room 1,room 7\n1,2.5,1.9\n2,9.75,5\n").text
    assert all(word in svg for word in ("petit cycles", "room 1", "room 7"))


ENDINGS = [(".svg", lambda m: Svg("<svg/>")), (".csv", lambda m: Table("rate\n1\n")),
           (".png", lambda m: m.place().picture())]


@pytest.mark.parametrize("ending, made", ENDINGS)
def test_a_file_is_named_as_what_is_in_it(four, tmp_path, ending, made):
    for name in "a", "a.jpg", "a" + ending + ".old":
        with pytest.raises(ValueError, match=f"ends in {ending}, not as .*{name}"):
            made(four).save(tmp_path / name)
    for name in "a" + ending, "A" + ending.upper():
        made(four).save(str(tmp_path / name))
        assert (tmp_path / name).stat().st_size > 0


def test_a_table_is_a_data_frame(four):
    frame = four.study("repeat 3\ncycle\nend").pandas()
    assert list(frame["cycle"]) == [0, 1, 2]


def test_a_notebook_shows_tables_and_pictures(four):
    shown = four.study("set 12\nrepeat 40\ncycle\nclear 14\nend")._repr_html_()
    assert shown.count("<tr>") == 31 and "40 lines" in shown and "<svg" in shown
    assert "<svg" not in Table("cycle,taken\n")._repr_html_()
    picture = four.place().picture()
    assert (picture.width, picture.height) == (16, 16) and picture.png[:4] == b"\x89PNG"
    assert 'width="256"' in picture._repr_html_() and four.place()._repr_png_() == picture.png
    assert four.field(17)._repr_png_() is None and four.field(17)._repr_html_() is None


def test_pictures_are_those_of_the_laboratory(four, tmp_path):
    assert (four.picture().width, four.picture(12).width) == (4, 16)
    four.picture(12).save(tmp_path / "a.png")
    assert (tmp_path / "a.png").read_bytes() == four.picture(12).png
    with pytest.raises(Failed):
        four.field(17).picture()


def test_sources_and_acts():
    program = expand("field x 0 2\nrepeat 2\nadd x 1\nend\nsense")
    assert acts_of(program)[-1] == "sense" and program.startswith("field x 0 2 ; 1")
    with pytest.raises(Failed, match="the source: line 1: "):
        expand("hop")
    with pytest.raises(Refused, match="^line 2 of the text\n"):
        acts_of("sense\nhop")
