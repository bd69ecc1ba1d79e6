"""Vertices of a large region, piece by piece, into one file of HDF5: vertices.h5. Each vertex comes once."""
import argparse

from pagnetuf import Tiling


def main():
    parser = argparse.ArgumentParser(description=__doc__)
    parser.add_argument("path", nargs="?", default="vertices.h5", help="the file to write")
    path = parser.parse_args().path
    import h5py

    tiling = Tiling("p3")
    with h5py.File(path, "w") as file:
        table = file.create_dataset("points", (0, 2), "f8", maxshape=(None, 2), chunks=(65536, 2))
        for vertices in tiling.sheet((600, 500), of="vertices", whole=True):
            table.resize(len(table) + len(vertices), 0)
            table[len(table) - len(vertices) :] = tiling.ring.xy(vertices)
        print(len(table), "vertices")


if __name__ == "__main__":
    main()
