"""A sheet of many tiles on several processors.

    python3 python/benchmarks/sheets.py --tiles 1e8 --processes 4 --by pool|dask|none --hand counts|arrays

With `counts` the arrays of tiles stay in the processes that compute them, which hand back how many there are
in each piece; with `arrays` they hand back the tiles. With --addresses each tile has its address. It writes
the number of tiles, the time of the clock, and the processor time of all processes."""
import argparse
import math
import os
import resource
import sys
import time
from contextlib import contextmanager

sys.path.insert(0, os.path.join(os.path.dirname(os.path.abspath(__file__)), os.pardir))
os.environ["PYTHONPATH"] = os.pathsep.join([sys.path[0], os.environ.get("PYTHONPATH", "")])

from pagnetuf import Tiling  # noqa: E402


@contextmanager
def executor_of(kind: str, processes: int):
    """A pool of processes, that of a local Dask cluster, or None."""
    if kind == "none":
        yield None
    elif kind == "pool":
        from concurrent.futures import ProcessPoolExecutor

        with ProcessPoolExecutor(processes) as executor:
            yield executor
    else:
        from distributed import Client, LocalCluster

        with LocalCluster(
            n_workers=processes, threads_per_worker=1, dashboard_address=None
        ) as cluster, Client(cluster) as client:
            yield client.get_executor()


def used() -> float:
    """The processor time of this process and of its children that have ended."""
    both = [resource.getrusage(who) for who in (resource.RUSAGE_SELF, resource.RUSAGE_CHILDREN)]
    return sum(it.ru_utime + it.ru_stime for it in both)


def half_for(tiling: Tiling, tiles: float) -> int:
    """The half-width of a square region with about so many tiles."""
    half = (100, 100)
    return round(100 * math.sqrt(tiles / len(tiling.window(half=half, addresses=False))))


def main():
    words = argparse.ArgumentParser(description=__doc__.splitlines()[0])
    words.add_argument("rule", nargs="?", default="p3")
    words.add_argument("--tiles", type=float, default=1e6)
    words.add_argument("--processes", type=int, default=4)
    words.add_argument("--by", choices=["none", "pool", "dask"], default="pool")
    words.add_argument("--hand", choices=["counts", "arrays"], default="counts")
    words.add_argument("--addresses", action="store_true")
    options = words.parse_args()
    tiling = Tiling(options.rule)
    half, start, clock = half_for(tiling, options.tiles), used(), time.perf_counter()
    with executor_of(options.by, options.processes) as executor:
        ready = time.perf_counter()
        count = pieces = 0
        for piece in tiling.sheet(
            (half, half),
            executor=executor,
            each=len if options.hand == "counts" else None,
            addresses=options.addresses,
            ahead=4 * options.processes,
        ):
            count += piece if options.hand == "counts" else len(piece)
            pieces += 1
        ended = time.perf_counter()
    spent = used() - start
    extra = "with" if options.addresses else "without"
    print(f"{options.rule}, half={half},{half}: {count} tiles in {pieces} pieces, {extra} addresses")
    print(f"{options.by}, {options.processes} processes, {options.hand}; {ready - clock:.1f} s to start")
    print(f"clock {ended - ready:.1f} s, {count / (ended - ready) / 1e6:.2f} million tiles a second")
    print(f"processors {spent:.1f} s, {spent / count * 1e6:.3f} microseconds a tile")


if __name__ == "__main__":
    main()
