"""The wires to the machine: lines go to one `cm1lab front`, and its answers come back (docs/LABORATORY.md, "A front
end"). Nothing in this module knows what a line means to the machine.

Two rules make it safe over two pipes:

* A *piece* of lines has at most 65,536 bytes, which is what a pipe holds, and all its answers are read before the next
  piece goes out. So a write never waits for the front end to read, and the two never wait for each other. A longer line
  is a piece of its own: the front end reads the whole of a line before it answers.
* Some answers have several lines: the first tells how many follow.
"""
from __future__ import annotations

import importlib
import os
import shutil
import signal
import subprocess
import tempfile
import threading
from contextlib import contextmanager
from itertools import islice
from types import FrameType
from typing import Dict, Iterable, Iterator, List, NoReturn, Optional, Sequence

from .refusals import Refused, Unavailable, fault_of

PIPE_BYTES = 65_536                                     # that a pipe of Linux holds
LONGEST_WAIT = PIPE_BYTES // 2                          # bytes of lines that wait for the next question
HAVE_MORE_LINES = ("buf", "events", "numbers", "image")  # first words of answers that count the lines behind them
CONTEXTS = ("if", "unless", "always")                   # first words that say where the lines behind are carried out
NOTED = ("field", *CONTEXTS)
UNKNOWN_CONTEXT = ""
ENDED = "the front end has ended, and its machine with it"


# What `signal.signal` calls. That looks up the names of handlers as well, which takes longer than a short question.
_set_handler = importlib.import_module("_signal").signal


def program(name: str) -> str:
    """The path of `cm1` or `cm1lab`: what the environment's CM1 or CM1LAB says, or else the first on the path."""
    found = os.environ.get(name.upper()) or shutil.which(name)
    if not found:
        raise Unavailable(f"{name} is not on the path; README, \"How to begin\", tells how it is made")
    return found


def command(name: str, *words: object, given: bytes = b"") -> bytes:
    """Runs one command of `cm1` or `cm1lab` to its end: what it writes on standard output.

    `given` is its standard input. Raises `Refused` or `Failed` where its status is not 0.
    """
    ended = subprocess.run([program(name), *map(str, words)], input=given, capture_output=True)
    if ended.returncode != 0:
        raise fault_of(ended.stderr.decode(errors="replace"), ended.returncode)
    return ended.stdout


class Front:
    """One front end: a process `cm1lab front` over the machine of an image.

    The file `image` is read once and not changed. With `out` the image of the machine that is left goes into that file
    when the front end is closed, and not where it is abandoned.
    """

    def __init__(self, image: str, out: Optional[str] = None) -> None:
        self.fields: Dict[str, str] = {}        # by name, the `field` line that defined it
        self.context = "always"                 # the last `if`, `unless` or `always` that was told
        self._defined: Dict[str, str] = {}      # those of `fields` that were answered
        self._waiting: List[str] = []           # lines that were told and have not gone out
        self._waiting_bytes = 0
        words = [program("cm1lab"), "front", image]
        if out is not None:
            words += ["--out", out]
        self._errors = tempfile.TemporaryFile()
        # In a session of its own, so that Ctrl-C at the terminal does not end it.
        self._process = subprocess.Popen(words, stdin=subprocess.PIPE, stdout=subprocess.PIPE, stderr=self._errors,
                                         bufsize=PIPE_BYTES, start_new_session=True)
        assert self._process.stdin is not None and self._process.stdout is not None
        self._to = self._process.stdin
        self._from = self._process.stdout

    # ---- lines and answers

    def tell(self, lines: Iterable[str]) -> None:
        """Takes lines whose answer will be `ok`. They go out with the next question, or once there are 32 KiB of them.

        A line that is refused all the same is told when its answer comes.
        """
        for line in lines:
            self._note(line)
            self._waiting.append(line)
            self._waiting_bytes += len(line) + 1
        if self._waiting_bytes > LONGEST_WAIT:
            self.ask([])

    def ask(self, lines: Sequence[str]) -> List[str]:
        """The answers to these lines, one each, of which none may be empty or a comment. Lines that wait go out before.

        Raises `Refused` for the first line that is refused. Lines behind it in the same piece have been done, later
        pieces have not gone out, and no answer is left unread.
        """
        waited = self._waiting
        self._waiting = []
        self._waiting_bytes = 0
        answers: List[str] = []
        for piece in pieces([*waited, *lines]):
            with uninterrupted():
                told = self._exchange(piece)
            self._learn(piece, told)
            answers += told
        return answers[len(waited):]

    def _exchange(self, piece: Sequence[str]) -> List[str]:
        """Sends one piece and reads all its answers."""
        try:
            self._to.write(("\n".join(piece) + "\n").encode())
            self._to.flush()
        except (BrokenPipeError, ValueError):               # it has ended, or was closed
            self._raise_its_end()
        return [self._read_answer() for _ in piece]

    def _read_answer(self) -> str:
        line = self._from.readline()
        if line == b"ok\n":                                 # most often
            return "ok"
        if not line.endswith(b"\n"):
            self._raise_its_end()
        first = line[:-1].decode()
        word, _, rest = first.partition(" ")
        if word not in HAVE_MORE_LINES:
            return first
        count = int(rest)
        lines = list(islice(self._from, count))
        if len(lines) < count or lines and not lines[-1].endswith(b"\n"):
            self._raise_its_end()
        return "\n".join([first, b"".join(lines)[:-1].decode()]) if lines else first

    def _learn(self, piece: Sequence[str], answers: Sequence[str]) -> None:
        """Takes note of what was done; raises the first refusal."""
        refused: Optional[Refused] = None
        for line, answer in zip(piece, answers):
            if answer == "ok":
                self._note(line)
                if line.startswith("field "):
                    self._defined[line.split()[1]] = line
            elif answer.startswith("?") and refused is None:
                refused = Refused(int(answer[1:]), line)
        if refused is not None:
            self.fields = dict(self._defined)               # lines that did not go out have defined nothing
            self.context = UNKNOWN_CONTEXT                  # whoever wants one tells it again
            raise refused

    def _note(self, line: str) -> None:
        if not line.startswith(NOTED):
            return
        if is_definition(line):
            self.fields[line.split()[1]] = line
        elif line.partition(" ")[0] in CONTEXTS:
            self.context = line

    # ---- its end

    def close(self) -> None:
        """Sends what waits and ends the process; with `out` the image stands there then."""
        try:
            self.ask([])
            self._to.close()
        except BrokenPipeError:                             # it has ended, before it read all that was sent
            self.abandon()
            raise Unavailable(ENDED) from None
        except BaseException:
            self.abandon()
            raise
        status = self._process.wait()
        told = self._told_errors()
        self._from.close()
        if status != 0:
            raise fault_of(told, status)

    def abandon(self) -> None:
        """Ends the process at once; nothing is written into `out`."""
        self._process.kill()
        self._process.wait()
        for pipe in (self._to, self._from, self._errors):
            try:
                pipe.close()
            except BrokenPipeError:                         # bytes that were not sent are of no use any more
                pass

    def _told_errors(self) -> str:
        if self._errors.closed:
            return ""
        self._errors.seek(0)
        told = self._errors.read().decode(errors="replace")
        self._errors.close()
        return told

    def _raise_its_end(self) -> NoReturn:
        status = self._process.wait()
        told = self._told_errors()
        if status < 0 or not told:
            raise Unavailable(ENDED)
        raise fault_of(told, status)


def is_definition(line: str) -> bool:
    """Whether it is a line `field NAME AT LEN`, and no question `field C P A L`."""
    return line.startswith("field ") and len(line.split()) == 4


def pieces(lines: Sequence[str]) -> Iterator[List[str]]:
    """These lines in pieces of at most 65,536 bytes each; a longer line is a piece of its own."""
    piece: List[str] = []
    size = 0
    for line in lines:
        length = len(line) + 1
        if piece and size + length > PIPE_BYTES:
            yield piece
            piece, size = [], 0
        piece.append(line)
        size += length
    if piece:
        yield piece


@contextmanager
def uninterrupted() -> Iterator[None]:
    """Keeps Ctrl-C back to the end of the block, so that no answer stays unread and is taken for that of a later line.

    A second Ctrl-C goes through at once; the front end is of no use then.
    """
    if threading.current_thread() is not threading.main_thread():
        yield                                               # only the main thread is ever interrupted
        return
    came: List[int] = []

    def keep_back(number: int, frame: Optional[FrameType]) -> None:
        if came:
            raise KeyboardInterrupt
        came.append(number)

    before = _set_handler(signal.SIGINT, keep_back)
    try:
        yield
    finally:
        _set_handler(signal.SIGINT, before if before is not None else signal.default_int_handler)
    if came:
        raise KeyboardInterrupt
