"""The programs that answer the parts of an input side by side, where there is no library that answers parts."""
from __future__ import annotations

import signal
import subprocess
import tempfile
import threading
from concurrent.futures import Future, ThreadPoolExecutor
from contextlib import suppress
from typing import IO, Sequence, Set, Tuple

from .runs import program
from .streams import write_all

TRIES = 3  # of a part whose program is ended by a signal
Written = Tuple[int, "IO[bytes]"]


class Programs:
    """The programs that run side by side, each on a part, so that all of them can be ended."""

    def __init__(self, words: Sequence[str], count: int) -> None:
        self.words, self.count = [program(), *words], count
        self.lock = threading.Lock()
        self.running: Set["subprocess.Popen[bytes]"] = set()
        self.are_ended = False
        self.threads = ThreadPoolExecutor(count)
        self.given: Set["Future[Written]"] = set()

    def has_room(self) -> bool:
        """Whether another part can be taken."""
        return len(self.given) <= 3 * self.count

    def give(self, data: bytes) -> "Future[Written]":
        """Has a program answer a part."""
        given = self.threads.submit(self._answer, data)
        self.given.add(given)
        return given

    def wait(self, given: "Future[Written]") -> Tuple[int, bytes]:
        """Waits for the answers to a part; returns the status of the program, and its text."""
        status, out = given.result()
        self.given.discard(given)
        with out:
            out.seek(0)
            return status, out.read()

    def _answer(self, data: bytes) -> Written:
        """Runs the program on a part, and again where a signal ended it; returns its status, and the file of its text."""
        with tempfile.TemporaryFile() as given:
            write_all(given, data)
            for tries_left in reversed(range(TRIES)):
                out = tempfile.TemporaryFile()
                given.seek(0)
                status = self._run(given, out)
                if status <= 128 or not tries_left:
                    break
                out.close()
        return status, out

    def _run(self, given: "IO[bytes]", out: "IO[bytes]") -> int:
        """Runs the program from one file to another; returns its status, 128 and more where a signal ended it."""
        with self.lock:
            if self.are_ended:
                return 128 + signal.SIGTERM
            running = subprocess.Popen(self.words, stdin=given, stdout=out)
            self.running.add(running)
        status = running.wait()
        with self.lock:
            self.running.discard(running)
        return status if status >= 0 else 128 - status

    def end(self) -> None:
        """Ends all programs, and lets none begin."""
        for given in self.given:
            given.cancel()
        with self.lock:
            self.are_ended = True
            for running in self.running:
                with suppress(ProcessLookupError):  # where it has just ended, which Python 3.8 minds
                    running.kill()
        self.threads.shutdown()
