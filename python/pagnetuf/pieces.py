"""The pieces of a sheet, one after another, computed here or by an executor."""
from __future__ import annotations

from collections import deque
from contextlib import contextmanager
from functools import partial
from typing import TYPE_CHECKING, Any, Callable, Deque, Generator, Iterator, Optional, Tuple

from .engine import Box
from .piece import Packed, Task, made, packed, patch_of, piece_of
from .progress import progress_of
from .refusals import Refusal

if TYPE_CHECKING:
    from .sheet import Sheet


class Pieces:
    """The pieces of a sheet, in order, as an iterator with a length. `done` is how many have come; `close`,
    or leaving a loop, cancels what waits."""

    def __init__(
        self,
        sheet: "Sheet",
        executor: Any = None,
        ahead: int = 16,
        each: Optional[Callable[[Any], Any]] = None,
        start: int = 0,
        progress: bool = False,
    ):
        if not 0 <= start <= len(sheet):
            raise ValueError(
                f"start is from 0 to {len(sheet)}, which is how many pieces there are, and not {start}"
            )
        self.sheet, self.done, self.start = sheet, 0, start
        self._found = self._made(executor, max(1, ahead), each)
        self._shown = progress_of(len(sheet) - start, "windows") if progress else None

    def __len__(self) -> int:
        return len(self.sheet) - self.start

    def __iter__(self) -> "Pieces":
        return self

    def __next__(self) -> Any:
        try:
            piece = next(self._found)
        except StopIteration:
            if self._shown:
                self._shown.end()
            raise
        self.done += 1
        if self._shown:
            self._shown.step()
        return piece

    def close(self) -> None:
        """Ends the work: what waits is cancelled, and what is under way is left to itself."""
        self._found.close()
        if self._shown:
            self._shown.end()

    def __del__(self) -> None:
        if hasattr(self, "_found"):
            self._found.close()

    def _made(
        self, executor: Any, ahead: int, each: Optional[Callable[[Any], Any]]
    ) -> Generator[Any, None, None]:
        tasks = enumerate(self.sheet.tasks())
        numbered = ((number, task) for number, task in tasks if number >= self.start)
        if executor is None:
            for number, task in numbered:
                with named_fault(number, task.box):
                    piece = piece_of(task)
                    piece = piece if each is None else each(piece)
                yield piece
            return
        call = packed if each is None and self.sheet.of == "tiles" else partial(made, each)
        waiting: Deque[Tuple[int, Task, Any]] = deque()
        try:
            for number, task in numbered:
                waiting.append((number, task, executor.submit(call, task)))
                if len(waiting) >= ahead:
                    yield self._taken(*waiting.popleft())
            while waiting:
                yield self._taken(*waiting.popleft())
        finally:
            for _, _, future in waiting:
                future.cancel()

    def _taken(self, number: int, task: Task, future: Any) -> Any:
        with named_fault(number, task.box):
            found = future.result()
        return patch_of(task.machine, found.unpacked()) if isinstance(found, Packed) else found


@contextmanager
def named_fault(number: int, box: Box) -> Iterator[None]:
    """Says of a fault in which piece it was, and how to go on."""
    try:
        yield
    except Exception as fault:
        told = f"in piece {number}, the window at={box.at} half={box.half}; start={number} goes on from there"
        if hasattr(fault, "add_note"):
            fault.add_note(told)
        elif not isinstance(fault, Refusal):  # before Python 3.11
            fault.args = (*fault.args, told)
        raise
