"""Rule files as complex numbers, for pictures and corners: in floating point and without the engine, which is exact."""
import cmath
import sys

sys.dont_write_bytecode = True
from command_line import Trouble, is_module, run  # noqa: E402
from toml_document import NotToml, document_of  # noqa: E402


class Kind:
    """A prototile: its vertices, the types of its edges, and its children as (kind, turn, shift)."""

    def __init__(self, vertices, edges, children):
        self.vertices, self.edges, self.children = vertices, edges, children


class Rule:
    """A rule file's numbers, of either format. `mates` and `parts` are by edge type, `glue` is the list of glue types."""

    def __init__(self, document, name):
        self.name, self.format, self.order = name, document["format"], document["order"]
        if type(self.order) is not int or self.order < 3:
            raise Trouble(f"order is {self.order!r}, which is no number of turns")
        self.zeta = cmath.exp(2j * cmath.pi / self.order)
        self.factor = self.point(document["lambda"])
        self.glue = document["glue"]
        self.mates = [entry["mate"] for entry in document["type"]]
        self.parts = [entry["parts"] for entry in document["type"]]
        self.kinds = [
            Kind(
                [self.point(vertex) for vertex in entry["vertices"]],
                entry["edges"],
                [(child[0], child[1], self.point(child[2:])) for child in entry["children"]],
            )
            for entry in document["kind"]
        ]

    def point(self, coefficients):
        """The point a0 + a1 ζ + a2 ζ² + a3 ζ³."""
        if len(coefficients) != 4:
            raise Trouble(f"{coefficients!r} hasn't four coefficients")
        return sum(a * self.zeta**i for i, a in enumerate(coefficients))

    def motion(self, turn, shift):
        """The motion z ↦ ζ^turn z + shift, as the two numbers ζ^turn and shift."""
        return self.zeta**turn, shift


def load(path):
    """The rule of a file."""
    try:
        with open(path, "rb") as file:
            document = document_of(file.read())
        return Rule(document, path.rpartition("/")[2].removesuffix(".toml"))
    except OSError as fault:
        raise Trouble(f"{path} can't be read: {fault.strerror}") from fault
    except NotToml as fault:
        raise Trouble(f"{path} is no TOML document: {fault}") from fault
    except KeyError as fault:
        raise Trouble(f"{path}: the key {fault} is missing, or stands below a [[type]] or [[kind]]") from fault
    except (TypeError, IndexError) as fault:
        raise Trouble(f"{path}: a value hasn't its form ({fault})") from fault
    except Trouble as fault:
        raise Trouble(f"{path}: {fault}") from fault


def sides(polygon):
    """The edges of a polygon as pairs of points."""
    return list(zip(polygon, polygon[1:] + polygon[:1]))


def cross(a, b):
    """Twice the area of the triangle 0, a, b; positive where it turns left."""
    return (a.conjugate() * b).imag


def area(polygon):
    """The area, positive where the polygon runs counterclockwise."""
    return sum(cross(a, b) for a, b in sides(polygon)) / 2


def centre(polygon):
    """The centre of area, or of the vertices where there is no area."""
    weights = [(cross(a, b), (a + b) / 3) for a, b in sides(polygon)]
    area = sum(weight for weight, _ in weights)
    if abs(area) < 1e-9:
        return sum(polygon) / len(polygon)
    return sum(weight * mean for weight, mean in weights) / area


def box(points):
    """The least and greatest x and y."""
    xs, ys = [z.real for z in points], [z.imag for z in points]
    return min(xs), min(ys), max(xs), max(ys)


if __name__ == "__main__":
    run(is_module, __doc__)
