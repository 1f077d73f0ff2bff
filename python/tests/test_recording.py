"""A run as one file."""
import base64
import json
import re
import zlib
from html.parser import HTMLParser
from pathlib import Path

import pytest

from linthofer import Machine
from linthofer.recording import Recording


DOCUMENT = Path(__file__).parents[2] / "docs" / "PANEL.md"


@pytest.fixture
def film():
    with Machine(dims=2) as machine:
        yield Recording(machine, "</script><b>&", "<i>")


def test_it_has_what_was_taken(film):
    x = film.machine.field(2, at=6)
    x[:] = [place % 4 for place in range(64)]
    film.take(x, "numbers")
    film.machine.cycle(2)
    film.take(9, "a flag")
    film.take("buffers", "routers")
    told = json.loads(re.search(r'id="recording">(.*?)</script>', film.html())[1])
    lamps = [list(zlib.decompress(base64.b64decode(frame["lamps"]))) for frame in told["frames"]]
    assert lamps == [[0, 1, 2, 3] * 16, [0] * 64, [0] * 4]
    assert [frame["most"] for frame in told["frames"]] == [3, 1, 7]
    assert [frame["clock"] for frame in told["frames"]] == [0, 2, 2]
    assert [frame["what"] for frame in told["frames"]] == ["memory bits 6 to 7", "flag 9 GLOBAL",
                                                           "messages in each router"]
    assert [frame["caption"] for frame in told["frames"]] == ["numbers", "a flag", "routers"]
    assert told["title"] == "</script><b>&" and told["dims"] == 2


def test_no_text_becomes_markup_and_nothing_comes_from_outside(film):
    film.take(0, "</script>")
    text = film.html()
    assert not set("<>&") & set(re.search(r'id="recording">(.*?)</script>', text)[1])
    assert text.count("</script>") == 2 and "<b>" not in text and "<i>" not in text
    assert "http:" not in text and "https:" not in text and "__" not in re.sub(r"sha256-\S+", "", text)
    own = r"&#x27;sha256-[\w+/]{43}=&#x27;"
    assert re.search(rf'content="default-src &#x27;none&#x27;; img-src data:; style-src {own}; script-src {own}; '
                     r'connect-src &#x27;none&#x27;; base-uri &#x27;none&#x27;; form-action &#x27;none&#x27;">', text)


def test_the_same_run_has_the_same_bytes(film):
    film.take(0)
    assert film.html() == film.html()


@pytest.mark.parametrize("shown", [16, -1, "flags", None])
def test_what_cannot_be_shown_is_refused(film, shown):
    with pytest.raises(ValueError):
        film.take(shown)


def test_nine_bits_are_too_many(film):
    with pytest.raises(ValueError):
        film.take(film.machine.field(9))


def test_a_field_of_another_machine_is_refused(film):
    with Machine(dims=2) as other, pytest.raises(ValueError, match="belongs to another machine"):
        film.take(other.field(1))


def test_a_recording_of_nothing_is_refused(film):
    with pytest.raises(ValueError):
        film.html()


def test_a_notebook_shows_it_in_a_frame_of_its_own(film):
    film.take(0)
    begun = []
    reader = HTMLParser()
    reader.handle_starttag = lambda tag, given: begun.append((tag, dict(given)))
    reader.feed(film._repr_html_())
    [(tag, given)] = begun
    assert (tag, given["sandbox"], given["title"]) == ("iframe", "allow-scripts", "</script><b>&")
    assert given["srcdoc"] == film.html()


def test_the_program_of_the_document_makes_a_recording(tmp_path, monkeypatch):
    monkeypatch.chdir(tmp_path)
    program = re.search(r"^```python\n(.*?)^```$", DOCUMENT.read_text(), re.M | re.S)[1]
    exec(compile(program, str(DOCUMENT), "exec"), {})
    assert (tmp_path / "life.html").read_text().count("generation ") == 30
