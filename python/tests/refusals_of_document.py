"""docs/REFUSALS.md as a module: `python3 tests/refusals_of_document.py` writes linthofer/refusal_table.py."""
import pathlib
import re

TOP = pathlib.Path(__file__).resolve().parents[2]
DOCUMENT = TOP / "docs" / "REFUSALS.md"
MODULE = TOP / "python" / "linthofer" / "refusal_table.py"
ROW = re.compile(r"^\| (\d+) \| (\w+) \| (.*?) \| .*? \| (.*?) \|$", re.MULTILINE)
HEAD = '''"""By number, what docs/REFUSALS.md tells: name, cause, what to do. Made by tests/refusals_of_document.py."""
from typing import Dict, Tuple

REFUSALS: Dict[int, Tuple[str, str, str]] = {
'''


def rows():
    """By number the name, the cause and the advice of each row of the document."""
    return {int(number): (name, cause, advice) for number, name, cause, advice in ROW.findall(DOCUMENT.read_text())}


def module():
    """The text of the module."""
    entries = [f"    {number}: ({name!r},\n        {cause!r},\n        {advice!r}),\n"
               for number, (name, cause, advice) in rows().items()]
    return HEAD + "".join(entries) + "}\n"


if __name__ == "__main__":
    MODULE.write_text(module())
