"""A picture of Penrose's rhombs in three colours, by matplotlib: plot.png."""
import argparse

from pagnetuf import Tiling


def main():
    parser = argparse.ArgumentParser(description=__doc__)
    parser.add_argument("path", nargs="?", default="plot.png", help="the file to write")
    path = parser.parse_args().path
    import matplotlib

    matplotlib.use("Agg")
    rhombs = Tiling("p3").window(half=(24, 20)).whole()
    ax = rhombs.plot(by="neighbours", colours=["#0b3954", "#ff6663", "#e0ff4f"], linewidths=0.4)
    ax.set_axis_off()
    ax.figure.savefig(path, dpi=150, bbox_inches="tight")


if __name__ == "__main__":
    main()
