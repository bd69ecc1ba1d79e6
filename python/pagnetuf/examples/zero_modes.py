"""Zero modes of the vertex model of Penrose's rhombs: states of energy 0.

Their share of all states tends to 81 - 50 phi = 0.0983 (M. Arai, T. Tokihiro, T. Fujiwara and M. Kohmoto,
Strictly localized states on a two-dimensional Penrose lattice, 1988). A patch tends to have fewer with its
rim and more with its rim cut off, but neither is a bound. The weight of the zero modes on the vertices near
the middle feels the rim least. As rhombs have no odd circles, one matrix leads from one half of the vertices
to the other, and the zero modes are what it takes to 0."""
import argparse

import numpy as np
from pagnetuf import Tiling

NEARLY_ZERO = 1e-9


def zero_weights(matrix, even):
    """The weight of all zero modes together on each vertex. Their sum is how many there are."""
    assert not matrix[even][:, even].nnz and not matrix[~even][:, ~even].nnz
    left, values, right = np.linalg.svd(matrix[even][:, ~even].toarray())
    rank = int((values > NEARLY_ZERO).sum())
    weights = np.empty(len(even))
    weights[even], weights[~even] = (left[:, rank:] ** 2).sum(1), (right[rank:] ** 2).sum(0)
    return weights


def main():
    argparse.ArgumentParser(description=__doc__).parse_args()
    patch = Tiling("p3").window(half=(40, 34)).whole()
    every = patch.adjacency_matrix("vertices")
    even = np.isin(patch.vertices() @ [1, -1, 1, -1] % 5, [0, 2])  # (an edge leads to the next class or back)
    inner = np.flatnonzero(patch.star_labels()[1] >= 0)
    weights, without = zero_weights(every, even), zero_weights(every[inner][:, inner], even[inner])
    print(f"with the rim {weights.mean():.4f}, without {without.mean():.4f}")
    far = np.hypot(*(patch.points() - patch.centre).T)
    for radius in (14, 16, 18):
        print(f"within {radius} lengths {weights[far < radius].mean():.4f}")
    print(f"limit {81 - 50 * (1 + 5**0.5) / 2:.4f}")


if __name__ == "__main__":
    main()
