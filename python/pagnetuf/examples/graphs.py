"""The graph of the tiles for other programs, by networkx: tiles.graphml; and a colouring of it."""
import argparse

from pagnetuf import Tiling


def main():
    parser = argparse.ArgumentParser(description=__doc__)
    parser.add_argument("path", nargs="?", default="tiles.graphml", help="the file to write")
    path = parser.parse_args().path
    import networkx

    graph = Tiling("sphinx").window(half=(20, 16)).to_networkx()
    networkx.write_graphml(graph, path)
    colours = networkx.greedy_color(graph, "smallest_last")
    print(len(graph), "tiles,", max(colours.values()) + 1, "colours; a place:", graph.pos[0])


if __name__ == "__main__":
    main()
