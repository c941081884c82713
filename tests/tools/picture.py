"""What a picture of tools/fault_map.py shows, read with Python's own XML reader: its title, and how many points of its
grid have each colour.

picture.py FILE
"""

from __future__ import annotations

import re
import sys
import xml.etree.ElementTree
from xml.etree.ElementTree import Element

SVG = "{http://www.w3.org/2000/svg}"
RECTANGLE = re.compile(r"M\d+ \d+h(\d+)v(\d+)h-\1z")


def points_of(shape: Element) -> int:
    """How many points a shape covers, in the units of its band: columns and rows."""
    if shape.tag == SVG + "rect":
        return int(shape.attrib["width"]) * int(shape.attrib["height"])
    path = shape.attrib["d"]
    assert RECTANGLE.sub("", path) == "", path
    return sum(int(wide) * int(high) for wide, high in RECTANGLE.findall(path))


root = xml.etree.ElementTree.parse(sys.argv[1]).getroot()
assert root.tag == SVG + "svg", root.tag
print(root.findtext(SVG + "title"))
points: dict[str, int] = {}
for band in root.findall(SVG + "g"):
    background, *shapes = band
    for shape in shapes:
        points[shape.attrib["class"]] = points.get(shape.attrib["class"], 0) + points_of(shape)
print(", ".join(f"{kind} {count}" for kind, count in sorted(points.items())))
