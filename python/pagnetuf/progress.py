"""How far a long work is: a bar of tqdm where it is installed, else a line a second on a terminal."""
from __future__ import annotations

import sys
import time
from typing import Any, Optional


class Progress:
    """Counts steps, and tells them."""

    def __init__(self, total: int, what: str):
        self.total, self.what, self.done, self.told = total, what, 0, time.monotonic()
        self.bar = tqdm_bar(total, what)

    def step(self) -> None:
        """One more is done."""
        self.done += 1
        if self.bar is not None:
            self.bar.update()
        elif time.monotonic() - self.told >= 1 or self.done == self.total:
            self.told = time.monotonic()
            print(f"{self.done} of {self.total} {self.what}", file=sys.stderr, flush=True)

    def end(self) -> None:
        if self.bar is not None:
            self.bar.close()
            self.bar = None


def tqdm_bar(total: int, what: str) -> Any:
    """A bar of tqdm on a terminal, or None."""
    try:
        from tqdm import tqdm
    except ImportError:
        return None
    return tqdm(total=total, unit=f" {what}", leave=False, delay=1, file=sys.stderr)


def progress_of(total: int, what: str) -> Optional[Progress]:
    """What tells of so many steps, if standard error is a terminal."""
    return Progress(total, what) if total > 1 and sys.stderr is not None and sys.stderr.isatty() else None
