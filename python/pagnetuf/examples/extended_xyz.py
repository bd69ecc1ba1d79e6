"""The vertices as extended XYZ, which ASE and OVITO open: vertices.xyz."""
import argparse

from pagnetuf import Tiling


def main():
    parser = argparse.ArgumentParser(description=__doc__)
    parser.add_argument("path", nargs="?", default="vertices.xyz", help="the file to write")
    path = parser.parse_args().path
    patch = Tiling("p3").window(half=(30, 26)).whole()
    with open(path, "w", encoding="utf-8") as file:
        print(len(patch.vertices()), "Properties=species:S:1:pos:R:3:star:I:1", sep="\n", file=file)
        for (x, y), star in zip(patch.points(), patch.star_labels()[1]):
            print(f"X {x:.9f} {y:.9f} 0 {star}", file=file)


if __name__ == "__main__":
    main()
