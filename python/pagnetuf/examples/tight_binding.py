"""A tight-binding model as kwant and pybinding make one: sites at the vertices, hops along the edges, and a
state on each site. Prints the least energy, and the density of states in eight intervals."""
import argparse

import numpy as np
from pagnetuf import Tiling


def main():
    argparse.ArgumentParser(description=__doc__).parse_args()
    patch = Tiling("p3").window(half=(40, 34)).whole()  # (whole tiles: a cut between halves is no hop)
    # (for kwant: builder[site(i)] = 0 for each site, and builder[site(a), site(b)] = -1 for each hop)
    sites, hops = patch.points(), patch.edges()
    energy = -patch.adjacency_matrix("vertices")
    assert energy.shape == (len(sites),) * 2 and energy.nnz == 2 * len(hops)
    levels = np.linalg.eigvalsh(energy.toarray())
    print(f"{len(sites)} sites, least energy {levels[0]:.3f}")
    print(np.histogram(levels, 8)[0].tolist())


if __name__ == "__main__":
    main()
