"""The panel without a browser: its steps, and what its server answers to whom."""
import base64
import json
import re
import threading
import urllib.error
import urllib.request
import zlib
from concurrent.futures import ThreadPoolExecutor

import pytest

from linthofer import Fault, Machine
from linthofer.panel import Server, Session
from linthofer.stepping import Layer, Stepping, acts_by_source, acts_of_lines

SOURCE = """field x 0 4      ; a comment
const x 5

sense
if 3
add x x
cycle
"""
BITS = Layer("field", 0, 8)


@pytest.fixture
def image(tmp_path):
    with Machine(dims=2) as machine:
        machine.save(tmp_path / "a.image")
    return str(tmp_path / "a.image")


@pytest.fixture
def begin(image, tmp_path):
    """Begins with a source; what began is ended behind the test."""
    began = []

    def begun(source=SOURCE):
        (tmp_path / "source.txt").write_text(source)
        began.append(Stepping(image, str(tmp_path / "source.txt")))
        return began[-1]
    yield begun
    for stepping in began:
        stepping.close()


def numbers(stepping):
    """Memory bits 0 to 7 of processor 0 of chip 0."""
    return stepping.ask("field 0 0 0 8")


# ---- acts and lines


def test_acts_know_their_lines(begin):
    acts = begin().acts
    assert [act.line for act in acts if act.text == "sense"] == [3]
    assert (acts[-1].text, acts[-1].line) == ("cycle", 6)
    assert {act.line for act in acts} == {1, 3, 5, 6}


def test_a_repeated_line_is_a_step_each_time(begin):
    assert len({act.step for act in begin("repeat 3\ncycle\nend").acts}) == 3


def test_lines_of_a_phrase_are_one_step():
    source = ["field x 0 2", "not x", "nano 0 0 8 8 8 0 0 0 n", "nano 1 1 8 8 8 0 0 0 n"]
    program = ["field x 0 2 ; 1", "nano 0 0 8 8 8 0 0x0f 0 n ; 2", "nano 1 1 8 8 8 0 0x0f 0 n ; 2",
               "nano 0 0 8 8 8 0 0 0 n ; 3", "nano 1 1 8 8 8 0 0 0 n ; 4"]
    assert [act.step - 1 for act in acts_by_source(source, program)] == [1, 1, 2, 3]


def test_a_program_may_have_as_many_acts_as_the_language_allows():
    lines = ["field x 0 1", "if 3", *["set 4", "cycle"] * 25_000, "set 5"]
    acts = acts_of_lines(lines)
    assert [len(it) for it in acts] == [0, 0, *[1, 1] * 25_000, 1]
    assert acts[-1] == acts_of_lines(["if 3", "set 5"])[-1]     # under the context that stands far above


# ---- steps


def test_steps_go_forward(begin):
    stepping = begin()
    stepping.step_act()
    assert stepping.position == 1
    stepping.step_line()
    assert stepping.acts[stepping.position].line == 3 and numbers(stepping) == "field 5"
    assert stepping.step_cycle() and stepping.state(BITS)["clock"] == 1
    stepping.step_act()
    assert stepping.position == len(stepping.acts)              # behind the last act nothing is left to do


def test_steps_go_back_with_what_was_typed(begin):
    stepping = begin()
    stepping.step_line()
    stepping.ask("poke 0 0 7 1")
    stepping.step_cycle()
    stepping.step_back()
    assert (stepping.state(BITS)["clock"], numbers(stepping)) == (0, "field 133")
    stepping.restart()
    assert numbers(stepping) == "field 0"


def test_what_is_typed_before_the_first_act_stays_until_it_is_taken_back(begin):
    stepping = begin()
    stepping.ask("poke 0 0 7 1")
    stepping.step_act()
    stepping.restart()
    assert numbers(stepping) == "field 128"
    stepping.restart()
    assert numbers(stepping) == "field 0"


def test_a_run_stops_at_a_breakpoint(begin):
    stepping = begin()
    stepping.toggle_breakpoint(5)
    assert stepping.run() and stepping.acts[stepping.position].line == 5
    assert stepping.run() and stepping.position == len(stepping.acts)


def test_a_breakpoint_can_be_taken_away(begin):
    stepping = begin()
    for _ in range(2):
        stepping.toggle_breakpoint(5)
    assert stepping.run() and stepping.position == len(stepping.acts)


def test_a_long_run_comes_in_pieces(begin):
    stepping = begin("repeat 6000\nset 3\nend")
    assert not stepping.run() and stepping.position == 5_000
    assert stepping.run() and stepping.position == 6_000


def test_a_condition_holds_for_lines_that_are_typed_later(begin):
    stepping = begin()
    for line in ("pokeflag 0 0 3 1", "if 3", "const x 9"):
        assert stepping.ask(line) == "ok"
    state = stepping.state(Layer("field", 0, 4))
    assert state["context"] == "if 3" and state["chip"]["numbers"] == ["9"] + 15 * ["0"]


@pytest.mark.parametrize("line", ["jump", "poke 0 0 0 1\npoke 0 0 1 1", "", "field 0 0 0 8 \ud800", "x" * 2_000])
def test_a_line_that_is_refused_changes_nothing(begin, line):
    stepping = begin()
    with pytest.raises(Fault):
        stepping.ask(line)
    assert stepping.typed == [] and numbers(stepping) == "field 0"


# ---- the way of a message

SENDS = "field rel 3968 16\nconst rel 3\nset 12\ncycle\ncycle\ncycle\n"


def test_a_way_is_of_all_acts_so_far(begin):
    stepping = begin(SENDS)
    assert stepping.step_cycle()
    # all want to cross dimensions 0 and 1: processor 0 leaves first over dimension 0, processor 1 then over dimension 1
    assert stepping.way(0, 0, 0).chips() == [0, 1] and stepping.way(0, 1, 0).chips() == [0, 2]


def test_a_way_has_the_lines_that_were_typed(begin):
    stepping = begin("field rel 3968 16\nset 12\ncycle")
    stepping.ask("const rel 3")
    stepping.step_cycle()
    stepping.ask("cycle")
    assert [it.partition(",")[0] for it in stepping.way(0, 0, 0)[:2]] == ["cycle 0: 0 -> 1", "cycle 1: 1"]


def test_after_a_poke_a_way_begins_there(begin):
    stepping = begin(SENDS)
    stepping.step_cycle()
    chip, tag = next((chip, it.tag) for chip in range(4) for it in stepping.machine.messages(chip))
    stepping.ask("poke 0 0 0 1")
    stepping.step_cycle()
    way = stepping.way(*tag)
    assert way[0].startswith("cycle 1:") and way.chips()[0] == chip


# ---- requests


@pytest.fixture
def session(begin):
    return Session(begin())


@pytest.mark.parametrize("asked", [
    {}, {"do": "jump"}, {"do": ["act"]}, {"do": "chip", "chip": 4}, {"do": "chip", "chip": "0"},
    {"do": "breakpoint", "line": True}, {"do": "look", "layer": {"address": -1}},
    {"do": "look", "layer": {"what": "core"}}, {"do": "look", "layer": {"what": "flag", "address": 16}},
    {"do": "ask", "line": 7}, {"do": "ask", "line": "jump"},
    {"do": "way", "chip": 0, "processor": 0, "birth": 0}, {"do": "way", "chip": 0, "processor": 0, "birth": "9"}])
def test_what_cannot_be_is_told(session, asked):
    assert session.do(asked)["fault"]


def test_a_refusal_comes_with_its_words(session):
    assert "? 16 Operands: an operand too few" in session.do({"do": "ask", "line": "add x"})["fault"]


@pytest.mark.parametrize("layer, most", [
    ({"what": "flag", "address": 9}, 1), ({"what": "buffers"}, 7), ({"address": 0, "length": 3}, 7),
    ({"address": 0, "length": 64}, 255), ({"address": 4095, "length": 64}, 1)])
def test_lamps_have_a_byte_each(session, layer, most):
    assert session.do({"do": "look", "layer": layer})["state"]["most"] == most


def test_a_chip_shows_the_flags_of_each_processor(session):
    session.do({"do": "ask", "line": "pokeflag 3 2 4 1"})
    assert session.do({"do": "chip", "chip": 4})["state"]["chip"]["chip"] == 0
    chip = session.do({"do": "chip", "chip": 3})["state"]["chip"]
    ones = [(processor, flag) for processor, flags in enumerate(chip["flags"]) for flag, bit in enumerate(flags) if bit]
    assert chip["chip"] == 3 and ones == [(2, 4)]


def test_lamps_show_the_upper_eight_bits(session):
    session.do({"do": "ask", "line": "field y 0 12"})
    session.do({"do": "ask", "line": "const y 0xabc"})
    for length, number in (12, 0xab), (8, 0xbc), (3, 4):
        state = session.do({"do": "look", "layer": {"length": length}})["state"]
        assert set(zlib.decompress(base64.b64decode(state["lamps"]))) == {number}


# ---- security


@pytest.fixture
def server(session):
    with Server(session) as server:
        threading.Thread(target=server.serve_forever, daemon=True).start()
        yield server
        server.shutdown()


@pytest.fixture
def answer(server):
    """The status and the body of the answer to a request, which is good but for what is given."""
    def of(body=b'{"do": "look"}', path="/do", method=None, **headers):
        given = {"Content-Type": "application/json", "X-Linthofer-Token": server.token,
                 **{name.replace("_", "-"): it for name, it in headers.items()}}
        request = urllib.request.Request(f"http://127.0.0.1:{server.server_port}{path}", body, given, method=method)
        try:
            with urllib.request.urlopen(request, timeout=20) as told:
                return told.status, told.read()
        except urllib.error.HTTPError as fault:
            return fault.code, fault.read()
    return of


@pytest.fixture
def status(answer):
    """The status alone."""
    return lambda *given, **named: answer(*given, **named)[0]


def test_it_is_bound_to_the_loopback_interface(server):
    assert server.server_address[0] == "127.0.0.1"
    assert server.hosts == {f"127.0.0.1:{server.server_port}", f"localhost:{server.server_port}"}


def test_its_own_page_is_answered(status, server):
    assert status() == status(Origin=f"http://localhost:{server.server_port}") == status(None, "/") == 200


def test_the_address_has_the_token_in_its_fragment(server, session):
    assert server.address == f"http://127.0.0.1:{server.server_port}/#t={server.token}"
    with Server(session) as another:
        assert len(server.token) == len(another.token) == 22 and server.token != another.token       # 128 bits


def test_a_request_has_at_most_so_many_bytes(status):
    assert status(b'{"do": "look"}'.ljust(65_536)) == 200 and status(b'{"do": "look"}'.ljust(65_537)) == 413


def test_requests_that_come_together_are_answered_one_after_another(answer):
    with ThreadPoolExecutor(8) as pool:
        told = list(pool.map(lambda _: answer(b'{"do": "ask", "line": "cycle"}'), range(40)))
    assert sorted(json.loads(body)["state"]["clock"] for _, body in told) == list(range(1, 41))


@pytest.mark.parametrize("expected, request_given", [
    (403, {"X_Linthofer_Token": ""}), (403, {"X_Linthofer_Token": "x"}),
    (403, {"Host": "rebound.example"}), (403, {"Origin": "http://rebound.example"}), (403, {"Origin": "null"}),
    (403, {"body": None, "path": "/", "Host": "rebound.example"}),
    (404, {"path": "/../page.html"}), (404, {"body": None, "path": "/page.html"}),
    (411, {"Transfer_Encoding": "chunked"}), (411, {"Content_Length": "-1"}), (413, {"Content_Length": "65537"}),
    (413, {"Content_Length": "9" * 5_000}), (415, {"Content_Type": "text/plain"}),
    (415, {"Content_Type": "text/plain; application/json"}),
    (400, {"body": b"x"}), (400, {"body": b"[]"}), (400, {"body": b"[" * 60_000}), (400, {"body": b"9" * 60_000}),
    (501, {"method": "PUT"})])
def test_all_others_are_refused(status, expected, request_given):
    assert status(**request_given) == expected


NEARLY_RIGHT = [
    *[("Host", host) for host in ("127.0.0.1", "localhost:1", "127.0.0.1:{port}0", "127.0.0.1.rebound.example:{port}",
                                  "rebound.example:{port}", "0.0.0.0:{port}")],
    *[("Origin", origin) for origin in ("http://127.0.0.1", "http://localhost:1", "https://127.0.0.1:{port}",
                                        "http://127.0.0.1:{port}0", "http://127.0.0.1:{port}.rebound.example",
                                        "http://127.0.0.1.rebound.example:{port}", "127.0.0.1:{port}", "")],
    *[("X_Linthofer_Token", token) for token in ("{token}x", "x{token}", "{most}", "{token}, {token}", "\xe9")]]


@pytest.mark.parametrize("name, given", NEARLY_RIGHT)
def test_what_is_nearly_right_is_refused(status, server, name, given):
    given = given.format(port=server.server_port, token=server.token, most=server.token[:-1])
    assert status(**{name: given}) == 403
    if name != "X_Linthofer_Token":                             # the page asks for no token
        assert status(None, "/", **{name: given}) == 403


def test_the_page_has_no_token_and_a_policy(server):
    nonces = set()
    for _ in range(2):
        told = urllib.request.urlopen(f"http://127.0.0.1:{server.server_port}/")
        page = told.read().decode()
        assert server.token not in page
        nonce = re.search(r'<script nonce="([\w-]{22})">', page)[1]
        assert told.headers["Content-Security-Policy"] == (
            f"default-src 'none'; img-src data:; style-src 'nonce-{nonce}'; script-src 'nonce-{nonce}'; "
            "connect-src 'self'; base-uri 'none'; form-action 'none'; frame-ancestors 'none'")
        assert told.headers["Cache-Control"] == "no-store" and told.headers["X-Content-Type-Options"] == "nosniff"
        nonces.add(nonce)
    assert len(nonces) == 2
