"""A patch as GeoJSON for maps, and its outline by shapely: tiles.geojson."""
import argparse

from pagnetuf import Tiling


def main():
    parser = argparse.ArgumentParser(description=__doc__)
    parser.add_argument("path", nargs="?", default="tiles.geojson", help="the file to write")
    path = parser.parse_args().path
    from shapely.geometry import shape
    from shapely.ops import unary_union

    tiles = Tiling("ab").window(half=(12, 9)).whole()
    with open(path, "w", encoding="utf-8") as file:
        file.write(tiles.to_geojson())
    outline = unary_union([shape(it["geometry"]) for it in tiles.__geo_interface__["features"]])
    print(outline.geom_type, round(outline.area, 6) == round(tiles.area, 6))


if __name__ == "__main__":
    main()
