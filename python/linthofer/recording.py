"""A run as one HTML file, which needs no server and no network: `Recording` (docs/PANEL.md).

The page is that of the panel.
"""
from __future__ import annotations

import base64
import hashlib
import html
import json
import re
import zlib
from pathlib import Path
from typing import Any, Dict, List, Sequence, Union

from .machine import Field, Machine

PAGE = Path(__file__).with_name("page.html")
BITS_SHOWN = 8                          # a frame has a byte for each lamp
FLAG_NAMES = {8: "ZERO", 9: "GLOBAL", 10: "NEWS", 11: "DAISY", 12: "SEND", 13: "ACK", 14: "RECV"}
POLICY = ("default-src 'none'; img-src data:; style-src {style}; script-src {script}; connect-src {connect}; "
          "base-uri 'none'; form-action 'none'")


# ---- the page


def packed(lamps: Sequence[int], level: int = 1) -> str:
    """One byte for each lamp, compressed, as the page reads them."""
    return base64.b64encode(zlib.compress(bytes(lamps), level)).decode()


def policy(nonce: str) -> str:
    """What the served page may do: run its own script, and ask its own server."""
    own = f"'nonce-{nonce}'"
    return POLICY.format(style=own, script=own, connect="'self'") + "; frame-ancestors 'none'"


def page(nonce: str) -> str:
    """The page as it is served."""
    return PAGE.read_text(encoding="utf-8").replace("__NONCE__", nonce).replace("__RECORDING__", "null")


def page_of_recording(recording: Dict[str, Any]) -> str:
    """The page with a recording in it. It may run its own script alone, known by its hash, and connects to nothing."""
    text = PAGE.read_text(encoding="utf-8").replace(' nonce="__NONCE__"', "")
    hashes = {tag: _hash(text, tag) for tag in ("style", "script")}
    content = html.escape(POLICY.format(connect="'none'", **hashes))
    text = text.replace('<meta charset="utf-8">',
                        f'<meta charset="utf-8">\n<meta http-equiv="Content-Security-Policy" content="{content}">', 1)
    return text.replace("__RECORDING__", _json_in_html(recording))


def _hash(text: str, tag: str) -> str:
    """The source expression of a policy for the element with this tag and no attribute."""
    found = re.search(f"<{tag}>(.*?)</{tag}>", text, re.S)
    assert found, tag
    return "'sha256-" + base64.b64encode(hashlib.sha256(found[1].encode()).digest()).decode() + "'"


def _json_in_html(value: object) -> str:
    """JSON in which no text can end the element around it."""
    return json.dumps(value).replace("<", "\\u003c").replace(">", "\\u003e").replace("&", "\\u0026")


# ---- a run


class Recording:
    """Pictures of one machine, one after another.

        film = Recording(m, "The Game of Life", "64 by 64 cells, from one glider")
        for generation in range(100):
            film.take(cell, f"generation {generation}")
            ...
        film.save("life.html")
    """

    def __init__(self, machine: Machine, title: str, note: str = ""):
        """Begins a recording of `machine`. `title` stands above the lamps and `note` beside them, as plain texts."""
        self.machine, self.title, self.note = machine, title, note
        self.frames: List[Dict[str, Any]] = []

    def take(self, shown: Union[Field, int, str], caption: str = "") -> None:
        """Takes a picture of what all processors have: of a field of at most 8 bits, of a flag by its number, or with
        `"buffers"` of how many messages stand at each chip."""
        if isinstance(shown, Field):
            self.machine.lines.refuse_foreign(shown)
            if shown.bits > BITS_SHOWN:
                raise ValueError(f"a picture shows at most {BITS_SHOWN} bits; take a part of the field")
            lamps, most = shown.list(), 2**shown.bits - 1
            last = shown.at + shown.bits - 1
            layer, what = "field", f"memory bits {shown.at} to {last}" if shown.bits > 1 else f"memory bit {last}"
        elif shown == "buffers":
            lamps, most = self.machine.buffers(), self.machine.room
            layer, what = "buffers", "messages in each router"
        elif isinstance(shown, int) and 0 <= shown < 16:
            lamps, most = self.machine.flag(shown), 1
            layer, what = "flag", " ".join(["flag", str(shown), FLAG_NAMES.get(shown, "")]).strip()
        else:
            raise ValueError("a picture shows a field, a flag by its number from 0 to 15, or \"buffers\"")
        self.frames.append({"caption": caption, "clock": self.machine.cycles, "layer": layer, "what": what,
                            "most": most, "lamps": packed(lamps, 9)})

    def html(self) -> str:
        """The recording as a page. The same recording has the same bytes."""
        if not self.frames:
            raise ValueError("nothing was taken")
        return page_of_recording({"title": self.title, "note": self.note, "dims": self.machine.dims,
                                  "frames": self.frames})

    def save(self, path: str) -> None:
        """Writes the page into a file."""
        Path(path).write_text(self.html(), encoding="utf-8")

    def _repr_html_(self) -> str:
        """A notebook shows the page in a frame of its own, in which its script can reach nothing of the notebook."""
        title, page_text = html.escape(self.title), html.escape(self.html())
        return (f'<iframe title="{title}" srcdoc="{page_text}" sandbox="allow-scripts" '
                'style="width:100%;height:52rem;border:0"></iframe>')
