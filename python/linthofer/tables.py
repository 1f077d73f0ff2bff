"""What the laboratory tells, as values that a notebook shows: tables, routes, pictures (docs/LABORATORY.md)."""
from __future__ import annotations

import base64
import html
import math
import os
import tempfile
from types import TracebackType
from typing import Any, Dict, Iterable, List, Optional, Type, Union

from .refusals import Failed
from .wire import command

FilePath = Union[str, "os.PathLike[str]"]

MOST_LINES_SHOWN = 30       # of a table in a notebook
LEAST_WIDTH_SHOWN = 256     # of a picture in a notebook, in dots of the screen

Number = Union[int, float, None]


class Svg:
    """A picture made of lines, which a notebook and a browser show; `text` is its SVG."""

    def __init__(self, text: str) -> None:
        self.text = text

    def save(self, path: FilePath) -> None:
        """Writes it into a file whose name ends in .svg (else ValueError)."""
        with open(_checked_ending(path, ".svg"), "w", encoding="utf-8") as file:
            file.write(self.text)

    def _repr_svg_(self) -> str:
        return self.text


class Picture:
    """A picture with a dot for each processor or chip, as `cm1lab picture --png` makes it; `png` are its bytes."""

    def __init__(self, png: bytes) -> None:
        self.png = png
        self.width = int.from_bytes(png[16:20], "big")      # both stand at the head of each PNG
        self.height = int.from_bytes(png[20:24], "big")

    def save(self, path: FilePath) -> None:
        """Writes it into a file whose name ends in .png (else ValueError)."""
        with open(_checked_ending(path, ".png"), "wb") as file:
            file.write(self.png)

    def _repr_png_(self) -> bytes:
        return self.png

    def _repr_html_(self) -> str:
        """The same, large enough to be looked at: each dot becomes a square."""
        scale = max(1, LEAST_WIDTH_SHOWN // self.width)
        data = base64.b64encode(self.png).decode()
        return (f'<img src="data:image/png;base64,{data}" width="{scale * self.width}" height="{scale * self.height}" '
                f'alt="{self.width} by {self.height} dots" style="image-rendering: pixelated">')


class Table(List[Dict[str, Number]]):
    """A table of `cm1lab study` or `cm1lab load`: a list with a dict for each line, by the names of the columns.

    A number with a point is a float, an empty cell is None. `csv` is the table as it was told, `columns` has the
    names.
    """

    def __init__(self, csv: str) -> None:
        head, *lines = csv.splitlines()
        self.csv = csv
        self.columns = head.split(",")
        super().__init__(dict(zip(self.columns, map(_number, line.split(",")))) for line in lines)

    def column(self, name: str) -> List[Number]:
        """The numbers of one column; KeyError where there is none of this name."""
        if name not in self.columns:
            raise KeyError(f"no column {name}; there are {', '.join(self.columns)}")
        return [record[name] for record in self]

    def pandas(self) -> Any:
        """The same as a pandas.DataFrame, where pandas is installed."""
        import pandas
        return pandas.DataFrame(list(self), columns=self.columns)

    def plot(self) -> Svg:
        """The picture that `cm1lab plot` makes of it; `Failed` where there is nothing to be drawn."""
        return plot_of(self.csv)

    def save(self, path: FilePath) -> None:
        """Writes the table into a file whose name ends in .csv (else ValueError)."""
        with open(_checked_ending(path, ".csv"), "w", encoding="utf-8") as file:
            file.write(self.csv)

    def _repr_html_(self) -> str:
        shown = [["" if it is None else it for it in record.values()] for record in self[:MOST_LINES_SHOWN]]
        rows = [_html_row("th", self.columns), *(_html_row("td", cells) for cells in shown)]
        more = f"<p>{len(self)} lines, of which these are the first</p>" if len(self) > MOST_LINES_SHOWN else ""
        return f"<table>{''.join(rows)}</table>{more}{_picture_if_any(self.csv)}"


class Route(List[str]):
    """The way of one message as `cm1lab route` tells it: a list of its lines; `text` has them all."""

    def __init__(self, text: str) -> None:
        self.text = text
        super().__init__(text.splitlines())

    def chips(self) -> List[int]:
        """The chips on its way, in the order in which it comes there."""
        way: List[int] = []
        for line in self:
            if line.startswith("cycle"):
                chips, _, _ = line.partition(": ")[2].partition(",")
                for chip in map(int, chips.split(" -> ")):
                    if not way or way[-1] != chip:
                        way.append(chip)
        return way

    def plot(self, first: Optional[int] = None, last: Optional[int] = None) -> Svg:
        """The picture that `cm1lab plot` makes of it, or of its petit cycles from one to another."""
        options = (("--from", first), ("--to", last))
        words = [word for option, cycle in options if cycle is not None for word in (option, cycle)]
        return Svg(command("cm1lab", "plot", *words, given=self.text.encode()).decode())

    def __str__(self) -> str:
        return self.text

    def _repr_html_(self) -> str:
        return f"<pre>{html.escape(self.text)}</pre>{_picture_if_any(self.text)}"


class TextFile:
    """A text, or bytes, as a file that is there while a command reads it: `with TextFile(text) as path`.

    A command tells faults with the path; here they are told with `name` in its place.
    """

    def __init__(self, content: Union[str, bytes], name: str = "the text") -> None:
        self.name = name
        descriptor, self.path = tempfile.mkstemp(prefix="linthofer-")
        with os.fdopen(descriptor, "wb") as file:
            file.write(content.encode() if isinstance(content, str) else content)

    def __enter__(self) -> str:
        return self.path

    def __exit__(self, kind: Optional[Type[BaseException]], fault: Optional[BaseException],
                 trace: Optional[TracebackType]) -> None:
        os.unlink(self.path)
        if isinstance(fault, Failed):
            raise Failed(fault.told.replace(self.path, self.name), fault.status) from None


def expand(source: str) -> str:
    """The program of a source, with the number of the source's line behind each of its lines (`cm1lab expand`)."""
    with TextFile(source, "the source") as path:
        return command("cm1lab", "expand", path).decode()


def acts_of(program: str) -> List[str]:
    """The acts of a program, each as a line that names no field (`cm1 list`)."""
    with TextFile(program, "the program") as path:
        listing = command("cm1", "list", path).decode()
    return [line.partition(" ;")[0] for line in listing.splitlines() if not line.startswith("field ")]


def load_curve(dims: int, room: int, rates: Union[float, Iterable[float]], cycles: int, *, rule: int = 0,
               pattern: str = "uniform", places: Optional[Iterable[int]] = None, background: int = 0,
               until: Optional[int] = None, table: Optional[str] = None, seed: int = 1) -> Table:
    """How the routers of a blank machine bear loads: a record for each rate (`cm1lab load`).

    `dims` is 0 to 12; `room`, how many messages a router holds, 1 to 15; `rates`, one or some, the messages that a chip
    offers in a petit cycle, are 0 to 16 with at most two digits behind the point (else ValueError, above 16 `Failed`);
    `cycles`, how many petit cycles each load has, is 1 to 1,000,000. `pattern` is "uniform", "hotspot", "transpose" or
    "reversal"; in its stead `places` may have the place to which each processor sends, in the order of their places: a
    place is sixteen times a chip and a number there. Of a hundred messages `background`, 0 to 100, go to any processor,
    drawn, whatever the pattern; messages are offered in the first `until` petit cycles alone, if that is given. Columns:
    rate, offered, taken, delivered, throughput, mean, p95, greatest, deepest; where `table` is "crossings", crossed,
    referred, refused, quiet behind these; where it is "dimensions", rate, dimension, crossed, referred, refused, with a
    record for each dimension of each rate; where it is "chips", the same with a record for each chip and chip in place of
    dimension; where it is "latencies", latency and a column for each rate, as "rate 0.50", with how many messages took so
    long (docs/LABORATORY.md, "Loads").
    """
    told_rates = ",".join(map(_rate, rates if isinstance(rates, Iterable) else [rates]))
    words: List[object] = [dims, room, told_rates, cycles, "--rule", rule, "--seed", seed]
    if background:
        words += ["--background", background]
    if until is not None:
        words += ["--until", until]
    if table is not None:
        words += ["--table", table]
    if places is None:
        return Table(command("cm1lab", "load", *words, "--pattern", pattern).decode())
    with TextFile("\n".join(map(str, places)), "places") as path:
        return Table(command("cm1lab", "load", *words, "--places", path).decode())


def plot_of(text: str) -> Svg:
    """The picture that `cm1lab plot` makes of a table or a route; of a table of one's own, too.

    The first column of that is `rate`, which goes to the right, and each other one is a curve with its heading.
    """
    return Svg(command("cm1lab", "plot", given=text.encode()).decode())


def _rate(rate: float) -> str:
    """The word of a rate; a sum of floats may miss its two digits by what floats miss."""
    if not (0 <= rate < float("inf") and math.isclose(100 * rate, round(100 * rate), rel_tol=1e-7)):
        raise ValueError(f"a rate is 0 to 16 with at most two digits behind the point, as 0.25, not {rate}")
    return f"{rate:.2f}"


def _checked_ending(path: FilePath, ending: str) -> FilePath:
    if os.path.splitext(path)[1].lower() != ending:
        raise ValueError(f"what is saved is a {ending[1:].upper()}: the name of its file ends in {ending}, "
                         f"not as {os.fspath(path)!r}")
    return path


def _picture_if_any(text: str) -> str:
    """The picture, or nothing where there is nothing to be drawn: a notebook shows the rest all the same."""
    try:
        return plot_of(text).text
    except Failed:
        return ""


def _html_row(tag: str, cells: Iterable[object]) -> str:
    return "<tr>" + "".join(f"<{tag}>{html.escape(str(cell))}</{tag}>" for cell in cells) + "</tr>"


def _number(word: str) -> Number:
    if not word:
        return None
    return float(word) if "." in word else int(word)
