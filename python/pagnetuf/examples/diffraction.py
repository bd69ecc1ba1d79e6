"""A diffraction pattern of Ammann-Beenker's vertices as a grey picture: diffraction.pgm. A wave k counts as
exp(i k r), without 2 pi."""
import argparse

import numpy as np
from pagnetuf import Tiling


def main():
    parser = argparse.ArgumentParser(description=__doc__)
    parser.add_argument("path", nargs="?", default="diffraction.pgm", help="the file to write")
    path = parser.parse_args().path
    patch = Tiling("ab").window(half=(60, 44), addresses=False).whole()
    along = np.linspace(-16, 16, 240)
    waves = np.stack(np.meshgrid(along, along[::-1]), -1)
    strength = np.sqrt(patch.structure_factor(waves, radius=20))
    grey = (255 * np.minimum(1, 2 * strength / strength.max())).astype(np.uint8)
    with open(path, "wb") as file:
        file.write(b"P5 240 240 255\n" + grey.tobytes())
    print(grey.shape, bool(np.allclose(strength, strength[::-1, ::-1])))


if __name__ == "__main__":
    main()
