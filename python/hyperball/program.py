"""The program: where it is, how it is fed, and how it ends."""
from __future__ import annotations

import os
import platform
import re
import shutil
import subprocess
import sys
import threading
from collections import deque
from functools import lru_cache
from pathlib import Path
from types import TracebackType
from typing import IO, Any, Callable, Deque, Iterable, List, Optional, Type

from hyperball.progress import Progress as Progress, told_by

_PREFIX = "hyperball: "


class Fault(RuntimeError):
    """The program made no report. ``status`` is its exit status, or minus the number of the signal that ended it."""

    def __init__(self, text: str, status: int) -> None:
        super().__init__(text, status)
        self.text, self.status = text, status

    def __str__(self) -> str:
        return self.text


def find() -> str:
    """The program's file. FileNotFoundError says where it was looked for.

    HYPERBALL names it, if that is set. Else it is the launcher of the tree that this package stands in, or the program that
    was installed with the package, or a ``hyperball`` on the PATH.
    """
    named = os.environ.get("HYPERBALL")
    if named:
        program = shutil.which(named)
        if program is None:
            raise FileNotFoundError(f"HYPERBALL is {named!r}, and that is no program")
        return program
    package = Path(__file__).resolve().parent
    tree = package.parent.parent
    beside = package / "hyperball-x86_64-linux"
    if (tree / "crates.txt").is_file() and os.access(tree / "hyperball", os.X_OK):
        return str(tree / "hyperball")
    if os.access(beside, os.X_OK) and (sys.platform, platform.machine()) == ("linux", "x86_64"):
        return str(beside)
    program = shutil.which("hyperball")
    if program is None:
        raise FileNotFoundError("the program is not there: HYPERBALL is not set, this package was installed without it, "
                                "and there is no hyperball on the PATH")
    return program


def version() -> Optional[str]:
    """The version that the program says it has. None if it says none."""
    found = find()
    return _version_of(found, os.stat(found).st_mtime_ns)


@lru_cache(maxsize=None)
def _version_of(found: str, _: int) -> Optional[str]:
    said = subprocess.run([found, "--version"], stdin=subprocess.DEVNULL, capture_output=True, check=False)
    version = re.fullmatch(rb"hyperball ([\w.+-]+)\n", said.stdout)
    return version[1].decode() if version else None


class Program:
    """A run of the program with these words. It is ended if the block that it is for ends by an exception."""

    def __init__(self, words: List[str], progress: Progress = None) -> None:
        self._process = subprocess.Popen([find(), *words], stdin=subprocess.PIPE, stdout=subprocess.PIPE,
                                         stderr=subprocess.PIPE)
        assert self._process.stdin and self._process.stdout and self._process.stderr
        self._input, self._output = self._process.stdin, self._process.stdout
        self._told = _Told(self._process.stderr, told_by(progress), self._process.terminate)

    def __enter__(self) -> Program:
        return self

    def __exit__(self, kind: Optional[Type[BaseException]], error: Optional[BaseException],
                 trace: Optional[TracebackType]) -> None:
        if kind is not None:
            self._process.terminate()
        _close(self._input)
        self._output.close()
        self._process.wait()
        self._told.finish()

    def feed(self, pieces: Iterable[bytes]) -> None:
        """Writes the pieces to the program's input, and ends it; no more of them are taken if the program ends before."""
        for piece in pieces:
            try:
                self._input.write(piece)
            except BrokenPipeError:  # (of the program's input alone: one of the edges is raised)
                break
        _close(self._input)

    @property
    def output(self) -> IO[bytes]:
        """The program's output."""
        return self._output

    def end(self) -> None:
        """Waits until the program ends. Fault is raised if it made no report."""
        for _ in iter(lambda: self._output.read(1 << 16), b""):
            pass
        status = self._process.wait()
        self._told.finish()
        if self._told.error is not None:
            raise self._told.error
        if status < 0:
            raise Fault(f"the program was ended by signal {-status}", status)
        if status > 0:
            raise Fault(self._told.fault(status), status)


class _Told:
    """The lines that the program writes to its standard error, and who is told them."""

    def __init__(self, lines: IO[bytes], progress: Optional[Callable[[str], Any]], stop: Callable[[], None]) -> None:
        self.error: Optional[BaseException] = None
        self._lines, self._progress, self._stop = lines, progress, stop
        self._last: Deque[str] = deque(maxlen=100)
        self._thread = threading.Thread(target=self._read, name="hyperball", daemon=True)
        self._thread.start()

    def finish(self) -> None:
        """Waits for the last line."""
        self._thread.join()
        self._lines.close()

    def fault(self, status: int) -> str:
        """The text of the fault: the last line, or all that is said of words that are mistaken."""
        lines = list(self._last)
        if not lines:
            return f"the program ended with status {status}"
        if status == 1 and lines[-1].startswith(_PREFIX):
            return lines[-1][len(_PREFIX):]
        return "\n".join(lines).strip()

    def _read(self) -> None:
        for raw in self._lines:
            line = raw.decode("utf-8", "replace").rstrip("\n")
            self._last.append(line)
            if self.error is None:
                self._tell(line)

    def _tell(self, line: str) -> None:
        try:
            if self._progress is not None:
                self._progress(line[len(_PREFIX):] if line.startswith(_PREFIX) else line)
        except BaseException as error:  # it is raised again where the run was called
            self.error = error
            self._stop()


# Closes a pipe to a program that may have ended.
def _close(pipe: IO[bytes]) -> None:
    try:
        pipe.close()
    except BrokenPipeError:
        pass
