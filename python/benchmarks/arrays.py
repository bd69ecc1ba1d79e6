"""What the calls on arrays take: processor time for each item, on one processor.

    taskset -c 0 python3 python/benchmarks/arrays.py [RULE] [--half W,H]

It writes the least of five runs in nanoseconds, and how many items that is in a second. A neighbour is that
across the edges 0, 1, 2.. of the tiles of a window, in turn; in place, it is that across the edge of the tile
there that follows the one that leads back. TILING_LIBRARY= measures the program."""
import argparse
import os
import resource
import sys

import numpy as np

sys.path.insert(0, os.path.join(os.path.dirname(os.path.abspath(__file__)), os.pardir))

from pagnetuf import Tiling  # noqa: E402


def used() -> float:
    """The processor time of this process, and of the program where it was called."""
    both = [resource.getrusage(who) for who in (resource.RUSAGE_SELF, resource.RUSAGE_CHILDREN)]
    return sum(it.ru_utime + it.ru_stime for it in both)


def least(call, count: int, runs: int = 5) -> str:
    """The least processor time of a call for each of `count` items."""
    times = []
    for _ in range(runs):
        start = used()
        call()
        times.append((used() - start) / count)
    return f"{min(times) * 1e9:8.0f} ns {1 / min(times) / 1e6:8.2f} million a second"


def main():
    words = argparse.ArgumentParser(description=__doc__.splitlines()[0])
    words.add_argument("rule", nargs="?", default="p3")
    words.add_argument("--half", default="260,260", help="of the window (260,260)")
    options = words.parse_args()
    tiling, half = Tiling(options.rule), tuple(map(int, options.half.split(",")))
    window = tiling.window(half=half)
    count, addresses = len(window), window.addresses.copy()
    edges = (np.arange(count) % tiling.rule.corner_counts[window.kinds]).astype(np.uint8)
    there, numbers = tiling.neighbour_all(addresses, edges)
    onward = (numbers[:, 0] + 1) % tiling.rule.corner_counts[there["kind"]]
    print(f"{options.rule}, {count} tiles, by {type(tiling.machine).__name__}")
    for name, call in (
        ("a tile of a window", lambda: tiling.window(half=half)),
        ("the same without addresses", lambda: tiling.window(half=half, addresses=False)),
        ("a half of a window's whole tiles", lambda: tiling.window(half=half, addresses=False).whole()),
        ("a neighbour", lambda: tiling.neighbour_all(addresses, edges)),
        ("a neighbour's neighbour, in place", lambda: tiling.neighbour_all(there, onward, out=there)),
        ("a place", lambda: tiling.place_all(addresses)),
        ("a text of an address", window.address_texts),
    ):
        print(f"{name:36}{least(call, count)}", flush=True)
    texts = window.address_texts()
    print(f"{'a neighbour, from text to text':36}{least(lambda: tiling.neighbour_all(texts, edges), count)}")


if __name__ == "__main__":
    main()
