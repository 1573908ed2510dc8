"""Processes that answer the parts of an input by the library, side by side: what `parallel` has in place of programs.

Each process shares some files with this one, in memory where the system has such files. A part is written into one, and the
answers stand behind it there, so that no text is handed through a pipe. What a process was to answer that is ended by a
signal is given to another one.
"""
from __future__ import annotations

import mmap
import os
import subprocess
import sys
from collections import deque
from contextlib import suppress
from typing import Any, Deque, List, Optional, Sequence

from . import worker
from .library import library_with

FILES = 3  # of each process, so that parts are there when it has answered one
TRIES = 3  # of a part whose process is ended by a signal


def answering_library() -> Optional[str]:
    """The path of a library that answers parts of an input, or None where programs are to be run."""
    return library_with("pigale_run_part") if os.name == "posix" else None


class Task:
    """A part that a process answers. `status` and what follows are known once it is answered.

    The status is the program's, or 128 and the number of the signal that ended each process that was to answer it.
    """

    def __init__(self, file: _File, length: int, before: int) -> None:
        self.file, self.length, self.before = file, length, before
        self.tries = 0
        self.status: Optional[int] = None
        self.written = self.records = self.refused = 0

    @property
    def text(self) -> memoryview:
        """The answers, which stand there until the task is dropped."""
        at = worker.text_at(self.length)
        return memoryview(self.file.mapped(at + self.written))[at:at + self.written]

    def drop(self) -> None:
        """Gives the file back for another part."""
        self.file.is_free = True


class _File:
    """A file that a process shares with this one."""

    def __init__(self) -> None:
        self.file = _unnamed()
        self.memory: Optional[mmap.mmap] = None
        self.is_free = True

    def mapped(self, size: int) -> mmap.mmap:
        """The file as memory, of at least so many bytes."""
        if self.memory is None or len(self.memory) < size:
            if os.fstat(self.file.fileno()).st_size < size:
                os.ftruncate(self.file.fileno(), size)
            self.memory = mmap.mmap(self.file.fileno(), 0)
        return self.memory

    def close(self) -> None:
        self.memory = None
        self.file.close()


def _unnamed() -> Any:
    """A file without a name, in memory where that can be."""
    if hasattr(os, "memfd_create"):
        with suppress(OSError):
            return os.fdopen(os.memfd_create("pigale"), "r+b", 0)
    import tempfile
    return tempfile.TemporaryFile(buffering=0)


class _Process:
    """A process, its files, and what it is to answer."""

    def __init__(self, words: Sequence[str]) -> None:
        self.words = words
        self.files = [_File() for _ in range(FILES)]
        self.tasks: Deque[Task] = deque()
        self.start()

    def start(self) -> None:
        numbers = [file.file.fileno() for file in self.files]
        # in a session of its own, so that what is typed at a terminal ends this process alone, which then ends that one
        self.running = subprocess.Popen([sys.executable, "-I", "-S", worker.__file__, *self.words, *map(str, numbers)], bufsize=0,
                                        stdin=subprocess.PIPE, stdout=subprocess.PIPE, pass_fds=numbers, start_new_session=True)

    def send(self, task: Task) -> None:
        with suppress(OSError):  # of one that has just ended is heard when its answer is due
            assert self.running.stdin
            self.running.stdin.write(worker.TASK.pack(self.files.index(task.file), task.length, task.before))

    def hear(self) -> None:
        """Waits for the answer to the first task, or starts another process for all of them where this one has ended."""
        assert self.running.stdout
        said = self.running.stdout.read(worker.DONE.size) or b""
        task = self.tasks[0]
        if len(said) == worker.DONE.size:
            task.status, task.written, task.records, task.refused = worker.DONE.unpack(said)
            self.tasks.popleft()
            return
        self.end()
        ended = self.running.returncode
        task.tries += 1
        if task.tries == TRIES or ended >= 0:
            # a process that ends by itself had no memory
            task.status = 128 - ended if ended < 0 else 6
            self.tasks.popleft()
        self.start()
        for task in self.tasks:
            self.send(task)

    def end(self) -> None:
        """Ends the process, and waits until it has ended."""
        for pipe in (self.running.stdin, self.running.stdout):
            if pipe:
                pipe.close()
        if self.running.poll() is None:
            with suppress(ProcessLookupError):
                self.running.terminate()
        self.running.wait()


class Workers:
    """Processes that answer parts by the library at a path, as many as `count`; each begins when there is a part for it.

    What they hand over is the text of the answers, or a table of them where it is to be `tabled`.
    """

    def __init__(self, path: str, words: Sequence[str], count: int, tabled: bool = False) -> None:
        self.words, self.count = [path, " ".join(words), "table" if tabled else "text"], count
        self.processes: List[_Process] = []

    def has_room(self) -> bool:
        """Whether another part can be taken."""
        return len(self.processes) < self.count or any(file.is_free for it in self.processes for file in it.files)

    def give(self, data: bytes, before: int) -> Task:
        """Has the process answer a part that has least to do; `before` records stand before it."""
        process = min(self.processes, key=lambda it: (not any(file.is_free for file in it.files), len(it.tasks)), default=None)
        if process is None or process.tasks and len(self.processes) < self.count:
            process = _Process(self.words)
            self.processes.append(process)
        task = Task(next(file for file in process.files if file.is_free), len(data), before)
        task.file.is_free = False
        task.file.mapped(worker.room_for(len(data)))[:len(data)] = data
        process.tasks.append(task)
        process.send(task)
        return task

    def wait(self, task: Task) -> int:
        """Waits until a task is answered; returns its status."""
        while task.status is None:
            next(it for it in self.processes if task in it.tasks).hear()
        return task.status

    def end(self) -> None:
        """Ends all processes, and gives their files back."""
        for process in self.processes:
            process.end()
            for file in process.files:
                file.close()
