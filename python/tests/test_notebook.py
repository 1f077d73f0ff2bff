"""The notebook of the class is executed from top to bottom."""
import pathlib

import nbformat
from nbconvert.preprocessors import ExecutePreprocessor

NOTEBOOK = pathlib.Path(__file__).parents[1] / "notebooks" / "first.ipynb"


def test_the_notebook_runs(tmp_path):
    notebook = nbformat.read(NOTEBOOK, as_version=4)
    assert not any(cell.get("outputs") for cell in notebook.cells), "it is kept without what comes out"
    ExecutePreprocessor(timeout=120, kernel_name="python3").preprocess(notebook, {"metadata": {"path": str(tmp_path)}})
    shown = {kind for cell in notebook.cells for output in cell.get("outputs", []) for kind in output.get("data", {})}
    assert {"image/png", "text/html"} <= shown
