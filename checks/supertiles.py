"""Whole supertiles of every rule file, listed as their definition says, against the program.

Points are lists of whole coefficients of the powers of ζ, and tiles are found across edges by comparing ends of edges
among all tiles of the supertile: no table, no digit and no code of the engine is used.
"""
import concurrent.futures
import os
import subprocess
import sys
import tomllib

MOST_EDGES = 600  # of a supertile: one with more isn't listed
DEEPEST = 4

# ζ to the order/2 is -1; below, what ζ to the number of coefficients is
REDUCED = {4: [-1, 0], 6: [-1, 1], 8: [-1, 0, 0, 0], 10: [-1, 1, -1, 1]}


class Ring:
    """The points of an order, each a tuple of coefficients."""

    def __init__(self, order):
        self.order, self.top = order, REDUCED[order]
        self.size = len(self.top)

    def times_zeta(self, p):
        shifted = (0,) + p[:-1]
        return tuple(a + p[-1] * b for a, b in zip(shifted, self.top))

    def turned(self, k, p):
        for _ in range(k):
            p = self.times_zeta(p)
        return p

    def times(self, p, q):
        total = (0,) * self.size
        for a in p:
            total = tuple(s + a * b for s, b in zip(total, q))
            q = self.times_zeta(q)
        return total


class Supertile:
    """All tiles of the supertile of a kind and depth: (kind, digits from fine to coarse, turn, shift)."""

    def __init__(self, ring, rule, kind, depth):
        self.ring, self.rule, self.kind, self.depth = ring, rule, kind, depth
        self.factor = self.point(rule["lambda"])
        self.tiles = list(self.listed(kind, depth))

    def point(self, coefficients):
        return tuple(coefficients[: self.ring.size])

    def listed(self, kind, depth):
        zero = (0,) * self.ring.size
        if depth == 0:
            yield kind, (), 0, zero
            return
        scale = (1,) + zero[1:]
        for _ in range(depth - 1):
            scale = self.ring.times(scale, self.factor)
        for number, child in enumerate(self.rule["kind"][kind]["children"]):
            moved = self.ring.times(scale, self.point(child[2:]))
            for own, digits, turn, shift in self.listed(child[0], depth - 1):
                around = self.ring.turned(child[1], shift)
                yield (
                    own,
                    digits + ((number, kind),),
                    (turn + child[1]) % self.ring.order,
                    tuple(a + b for a, b in zip(around, moved)),
                )

    def edges(self, tile):
        """The two ends of each edge of a tile."""
        kind, _, turn, shift = tile
        corners = [
            tuple(a + b for a, b in zip(self.ring.turned(turn, self.point(vertex)), shift))
            for vertex in self.rule["kind"][kind]["vertices"]
        ]
        return list(zip(corners, corners[1:] + corners[:1]))

    def wanted(self):
        """For each call its words, and what it must print; None where an edge has no tile across it."""
        ends = {}
        for tile in self.tiles:
            for number, edge in enumerate(self.edges(tile)):
                assert edge not in ends, "two tiles have one edge"
                ends[edge] = tile, number
        for tile in self.tiles:
            kind, _, turn, shift = tile
            padded = shift + (0,) * (4 - len(shift))
            yield ["place", f"addr={address(tile)}"], f"{kind} {turn} {','.join(map(str, padded))}\n"
            for number, (start, end) in enumerate(self.edges(tile)):
                across = ends.get((end, start))
                text = None if across is None else f"{address(across[0])} {across[1]}\n"
                yield ["neighbour", f"addr={address(tile)}", f"edge={number}"], text


def address(tile):
    return f"{tile[0]}:" + ",".join(f"{child}/{parent}" for child, parent in tile[1])


def supertiles(ring, rule):
    """For each kind, the supertiles of depth 1 to the greatest that is small enough."""
    for kind in range(len(rule["kind"])):
        for depth in range(1, DEEPEST + 1):
            supertile = Supertile(ring, rule, kind, depth)
            if sum(len(rule["kind"][tile[0]]["vertices"]) for tile in supertile.tiles) > MOST_EDGES:
                break
            yield supertile


def compared(program, path):
    """How many calls on the rule of a file were compared, and those that differ."""
    with open(path, "rb") as file:
        text = file.read()
    rule = tomllib.loads(text.decode())
    count, wrong = 0, []
    for supertile in supertiles(Ring(rule["order"]), rule):
        for words, wanted in supertile.wanted():
            ran = subprocess.run([program, *words, "rule=-"], input=text, capture_output=True)
            count += 1
            told = ran.stdout.decode() if ran.returncode == 0 else None
            outside = ran.returncode == 8 and ran.stdout == b"" and ran.stderr.startswith(b"8 Outside ")
            if told != wanted or (wanted is None and not outside):
                wrong.append(f"{os.path.basename(path)}: {' '.join(words)}: {told!r} in place of {wanted!r}")
    return count, wrong


def main(top, program):
    rules = os.path.join(top, "rules")
    paths = sorted(os.path.join(rules, name) for name in os.listdir(rules) if name.endswith(".toml"))
    with concurrent.futures.ThreadPoolExecutor(os.cpu_count()) as pool:
        results = list(pool.map(lambda path: compared(program, path), paths))
    wrong = [line for _, lines in results for line in lines]
    for line in wrong[:20]:
        print(f"supertiles: {line}", file=sys.stderr)
    print(f"supertiles: {len(paths)} rules, {sum(count for count, _ in results)} calls compared, {len(wrong)} differ")
    sys.exit(1 if wrong or not paths else 0)


if __name__ == "__main__":
    main(*sys.argv[1:])
