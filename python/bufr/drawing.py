"""Maps: positions with coastlines, each coloured by a number. It needs matplotlib, cartopy and the coastlines that Debian packs for it
(GSHHS, coarse and low); nothing is downloaded."""
from __future__ import annotations

import importlib.util
import io
import logging
import os
import subprocess
import sys
from typing import IO, Any, List, Optional, Sequence, Tuple, Union

from .errors import Missing
from .versions import HERE

if sys.flags.no_site:
    # a command starts without the packages that are installed beside Python, since to find them takes long
    import site
    site.main()

Point = Tuple[float, float, float]
# What is imported, and the packages of Debian that have it.
PACKAGES = {"matplotlib": "python3-matplotlib", "cartopy": "python3-cartopy"}
DEBIAN = "/usr/bin/python3"
COASTS = ("c/GSHHS_c_L1.shp", "l/GSHHS_l_L2.shp")
# Borders, the finest first; they are drawn if they are there.
BORDERS = tuple(f"natural_earth/cultural/ne_{scale}_admin_0_boundary_lines_land.shp" for scale in ("10m", "50m", "110m"))
LAND, SEA, COAST = "#eeeadf", "#dbe7ee", "#7d7a70"
# The fewest points of an island that is drawn: the coarse coastlines make a triangle of many.
FEWEST = 4
# How many numbers a bar has a step for each; beyond it a step has several.
MOST_STEPS = 10
# How many degrees a map has beyond its positions, and at least.
MARGIN, LEAST = 0.08, 1.5


def missing() -> Optional[str]:
    """Return the first package that is not there."""
    return next((name for name in PACKAGES if importlib.util.find_spec(name) is None), None)


def told(command: str, package: str, debian: str) -> str:
    return f"{command} needs {package}, which {sys.executable} does not have (Debian: {debian}, for {DEBIAN})"


def need(command: str) -> None:
    """Raise which package is missing."""
    name = missing()
    if name:
        raise Missing(told(command, f"the package {name}", PACKAGES[name]))
    need_coasts(command)


def run_by_debian(command: str) -> None:
    """Run a command by Debian's Python in place of this one, if that alone has the packages."""
    if not missing() or not os.path.exists(DEBIAN) or os.path.realpath(DEBIAN) == os.path.realpath(sys.executable):
        return
    has = subprocess.run([DEBIAN, "-c", f"import {', '.join(PACKAGES)}"], stdin=subprocess.DEVNULL, capture_output=True)
    if has.returncode == 0:
        os.execv(DEBIAN, [DEBIAN, os.path.join(HERE, "__main__.py"), command, *sys.argv[1:]])


def need_coasts(command: str) -> None:
    """Raise that the coastlines are missing, which cartopy would download."""
    for file in COASTS:
        if found_of(f"gshhs/{file}") is None:
            raise Missing(told(command, "coastlines for cartopy", "python-cartopy-data"))


def found_of(file: str) -> Optional[str]:
    """Return the path of a shapefile that cartopy finds without a network, if it is there."""
    import cartopy
    folders = [cartopy.config["pre_existing_data_dir"], cartopy.config["repo_data_dir"], cartopy.config["data_dir"]]
    paths = [os.path.join(folder, "shapefiles", file) for folder in folders if folder]
    return next((path for path in paths if os.path.exists(path)), None)


def add_land(axes: Any, plain: Any) -> None:
    """Draw coastlines, lakes and, if they are there, borders."""
    from cartopy import feature
    from cartopy.io.shapereader import Reader
    coasts = feature.GSHHSFeature(scale="coarse", levels=[1]).geometries()
    # the first point of a ring comes again at its end
    lands = [each for each in coasts if len(each.exterior.coords) > FEWEST]
    axes.add_feature(feature.ShapelyFeature(lands, plain, facecolor=LAND, edgecolor=COAST, linewidth=0.4))
    # the lakes, of which small ones have two corners
    axes.add_feature(feature.GSHHSFeature(scale="low", levels=[2], facecolor=SEA, edgecolor="none"))
    borders = next(filter(None, map(found_of, BORDERS)), None)
    if borders is not None:
        lines = list(Reader(borders).geometries())
        axes.add_feature(feature.ShapelyFeature(lines, plain, facecolor="none", edgecolor=COAST, linewidth=0.3))


def steps_of(least: float, greatest: float) -> List[float]:
    """Return the bounds of steps of whole numbers that have all counts from one to another."""
    if greatest - least < MOST_STEPS:
        return [number - 0.5 for number in range(int(least), int(greatest) + 2)]
    from matplotlib.ticker import MaxNLocator
    return [float(each) for each in MaxNLocator(MOST_STEPS, integer=True).tick_values(least, greatest + 1)]


def extent_of(points: Sequence[Point]) -> Optional[Tuple[float, float, float, float]]:
    """Return the west, east, south and north of a map, or nothing for all the world."""
    if not points:
        return None
    south, north = min(point[0] for point in points), max(point[0] for point in points)
    west, east = min(point[1] for point in points), max(point[1] for point in points)
    if east - west > 180 or north - south > 110:
        return None
    margin = max(MARGIN * max(east - west, north - south), LEAST)
    # a map is at most twice as wide as high, and not higher than wide
    tall, wide = (north - south) / 2 + margin, (east - west) / 2 + margin
    tall, wide = max(tall, wide / 2), max(wide, tall)
    middle, centre = (south + north) / 2, (west + east) / 2
    return max(centre - wide, -180), min(centre + wide, 180), max(middle - tall, -90), min(middle + tall, 90)


def size_of(count: int) -> float:
    """Return how large the marks of so many positions are, in points by points."""
    return 36 if count <= 100 else 16 if count <= 1000 else 7 if count <= 10000 else 3


def draw(out: Union[str, IO[bytes]], kind: str, points: Sequence[Point], label: str, title: str, is_count: bool) -> None:
    """
    Draw positions with coastlines.

    Parameters
    ----------
    out, kind
        The file, and the kind of picture: png, svg or pdf.
    points
        The latitude, the longitude and the number of each position.
    label, title
        What the bar and the map say.
    is_count
        Whether the numbers are counts.
    """
    import matplotlib
    matplotlib.use("Agg")
    # texts of an SVG are texts
    matplotlib.rcParams["svg.fonttype"] = "none"
    # what the reader of coastlines says of their lakes, and that the first call takes longer, since it lists the fonts
    for name in ("shapefile", "matplotlib.font_manager"):
        logging.getLogger(name).setLevel(logging.ERROR)
    from cartopy import crs
    from matplotlib import pyplot
    plain = crs.PlateCarree()
    figure = pyplot.figure(figsize=(8, 4.6), dpi=200)
    axes: Any = figure.add_axes((0.06, 0.06, 0.82, 0.85), projection=plain)
    extent = extent_of(points)
    if extent is None:
        axes.set_global()
    else:
        axes.set_extent(extent, crs=plain)
    axes.set_facecolor(SEA)
    add_land(axes, plain)
    lines = axes.gridlines(draw_labels=True, linewidth=0.3, color="#999999")
    lines.top_labels = lines.right_labels = False
    lines.xlabel_style = lines.ylabel_style = {"size": 7}
    # the greatest come last, above the others
    ordered = sorted(points, key=lambda point: point[2])
    is_flat = bool(points) and ordered[0][2] == ordered[-1][2]
    axes.set_title(f"{title}\n{label}: {ordered[0][2]:g}" if is_flat and not is_count else title, fontsize=10)
    if points:
        steps = steps_of(ordered[0][2], ordered[-1][2]) if is_count else None
        norm = matplotlib.colors.BoundaryNorm(steps, 256) if steps and not is_flat else None
        marks = axes.scatter([point[1] for point in ordered], [point[0] for point in ordered], c=[point[2] for point in ordered],
                             s=size_of(len(ordered)), cmap="viridis", norm=norm, edgecolors="black", linewidths=0.3, zorder=5,
                             transform=plain)
        if not is_flat:
            add_bar(figure, axes, marks, label, steps)
    # no picture says when it was drawn
    dated = {"png": {}, "svg": {"Date": None}, "pdf": {"CreationDate": None}}[kind]
    drawn = io.BytesIO()
    figure.savefig(drawn, format=kind, metadata=dated, bbox_inches="tight", pad_inches=0.08)
    pyplot.close(figure)
    put(drawn, out, kind)


def add_bar(figure: Any, axes: Any, marks: Any, label: str, steps: Optional[List[float]]) -> None:
    """Add the bar that says which colour a number has: of counts a step each, or for some together."""
    at = axes.get_position()
    bar = figure.colorbar(marks, cax=figure.add_axes((at.x1 + 0.02, at.y0, 0.02, at.height)))
    bar.set_label(label, fontsize=8)
    bar.ax.tick_params(labelsize=7)
    if steps:
        bar.set_ticks([step + 0.5 for step in steps[:-1]] if steps[0] % 1 else steps)
        bar.ax.minorticks_off()


def put(drawn: io.BytesIO, out: Union[str, IO[bytes]], kind: str) -> None:
    """Write a picture. A PNG has at most 256 colours, which makes it a third as long."""
    octets = drawn.getvalue()
    if kind == "png":
        from PIL import Image
        less = io.BytesIO()
        Image.open(drawn).convert("RGB").quantize(256).save(less, "png", optimize=True)
        octets = less.getvalue()
    if isinstance(out, str):
        with open(out, "wb") as file:
            file.write(octets)
    else:
        out.write(octets)
