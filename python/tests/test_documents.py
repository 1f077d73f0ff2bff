"""What stands twice is the same, and what the documents show comes out so."""
import contextlib
import io
import re

import pytest
import refusals_of_document

from linthofer.refusal_table import REFUSALS

DOCUMENT = refusals_of_document.TOP / "docs" / "PYTHON.md"


def test_refusals_are_those_of_the_document():
    assert refusals_of_document.rows() == REFUSALS
    assert refusals_of_document.MODULE.read_text() == refusals_of_document.module()


def parts():
    """The titles of the document, with the programs that stand below each."""
    for part in re.split(r"^## ", DOCUMENT.read_text(), flags=re.MULTILINE)[1:]:
        programs = re.findall(r"^```python\n(.*?)^```$", part, flags=re.MULTILINE | re.DOTALL)
        if programs:
            yield pytest.param("\n".join(programs), id=part.partition("\n")[0])


@pytest.mark.parametrize("program", parts())
def test_the_document_shows_what_comes_out(program, tmp_path, monkeypatch):
    """The programs of one part are one program; behind `# ` on a line with `print` stands what it prints."""
    monkeypatch.chdir(tmp_path)
    told = io.StringIO()
    with contextlib.redirect_stdout(told):
        exec(compile(program, str(DOCUMENT), "exec"), {"__name__": "document"})
    expected = re.findall(r"^ *print\(.*\)  +# (.*)$", program, flags=re.MULTILINE)
    assert told.getvalue().splitlines() == expected
