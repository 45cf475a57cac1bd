"""bufr-map: what it draws, and of what it says that it is missing."""
import glob
import io
import json
import os
import re
import socket
import sys
import xml.etree.ElementTree as ET

import pytest

import bufr
from bufr import contents, drawing, summary
from bufr import map as bufr_map
import makers
from conftest import TOP, command, message, read, write

SYNOP = f"{TOP}/examples/standard/synop.bufr"
SAMPLES = sorted(glob.glob(f"{TOP}/examples/*.bufr") + glob.glob(f"{TOP}/examples/standard/*.bufr"))
SVG = "{http://www.w3.org/2000/svg}"


def drawn(points, kind="svg", **how):
    out = io.BytesIO()
    drawing.draw(out, kind, points, **{"label": "reports", "title": "a title", "is_count": True, **how})
    return out.getvalue()


def marks(svg):
    """How many marks a picture has, and its texts."""
    tree = ET.fromstring(svg)
    groups = [each for each in tree.iter(f"{SVG}g") if re.match("PathCollection_", each.get("id", ""))]
    texts = ["".join(each.itertext()).strip() for each in tree.iter(f"{SVG}text")]
    return sum(len(list(each.iter(f"{SVG}use"))) for each in groups), texts


def test_an_element_is_drawn_with_its_unit(folder):
    """The SYNOP of four stations has their temperatures."""
    path = f"{folder}/map.svg"
    assert command("map", SYNOP, "-o", path, "--element", "012101") == (
        0, f"{path}: 4 reports, 4 stations, 2024-01-15 12:00; 4 of 4 drawn at 4 positions\n", "")
    count, texts = marks(read(path))
    assert count == 4
    assert "012101 TEMPERATURE/AIR TEMPERATURE [K]" in texts and "4 reports, 4 stations, 2024-01-15 12:00" in texts


def test_its_numbers_are_those_of_the_summary(folder):
    """Of the samples: 153 reports of 6 stations. The aircraft has 128 positions without a station, and each station has one. Nine
    reports of 10384, in examples/, say none, and are at its position; four others have neither a station nor a position: without a
    station are 132."""
    path = f"{folder}/map.png"
    status, out, error = command("map", *SAMPLES, "-o", path)
    assert (status, out) == (1, f"{path}: 153 reports, 6 stations and 132 reports without a station, 2024-01-15 10:45 to 2024-01-15 12:00; "
                             "149 of 153 drawn at 134 positions; 4 have no position\n")
    assert error.splitlines() == [
        f"bufr-map: {TOP}/examples/refused.bufr: refused 0 M2 Edition 5",
        f"bufr-map: {TOP}/examples/short_data.bufr: refused 0 V2 DataEnds 1 8"]
    assert read(path).startswith(b"\x89PNG\r\n\x1a\n")
    found = json.loads(command("summary", "--json", *SAMPLES)[1])
    assert (sum(found["reports"][word] for word in ("with_key", "without_key")), sum(found["stations"].values())) == (153, 6)
    with contents.Files(SAMPLES) as files:
        _, reports = summary.read(files)
    assert sum(count for *_, count in reports.counts()) == sum(1 for row in bufr.rows(SAMPLES, ["005001", "005002"]) if any(row)) + 9


@pytest.mark.parametrize("words, drawn", [
    ([], "4 of 5 drawn at 2 positions; 1 has no position"),
    (["--element", "012101"], "1 of 5 drawn at 1 position; 3 have no position; 1 has no value")])
def test_how_many_are_drawn_and_why_not_all(words, drawn, folder):
    """Three reports of 10384, of which one has a position; one of no station at a position, without a value; and one that has neither."""
    place = "005001 52.46750, 006001 13.40214"
    fields = [f"001001 10, 001002 384, {place}, 012101 277.25", "001001 10, 001002 384, 012101 277.35", "001001 10, 001002 384",
              "005001 50.00000, 006001 10.00000", "012101 270.15"]
    known = "001001 001002 005001 006001 012101".split()
    subsets = [dict(each.split(" ") for each in line.split(", ")) for line in fields]
    lines = "".join("subset\n" + "".join(f"{word} {each.get(word, 'missing')}\n" for word in known) for each in subsets)
    status, octets, error = makers.encoded(write(f"{folder}/listing", "message\nsection1 98 0 0 0 2 0 46 0\ntime 2024 1 15 12 0 0\nflags\n"
                                                 f"descriptors {' '.join(known)}\n{lines}end\n"))
    assert (status, error) == (0, "")
    path, out = write(f"{folder}/file", octets), f"{folder}/map.svg"
    title = "5 reports, 1 station and 2 reports without a station, none"
    assert command("map", path, "-o", out, *words) == (0, f"{out}: {title}; {drawn}\n", "")
    assert {title, drawn} <= set(marks(read(out))[1])


def test_reports_at_one_position_are_told_alike(folder):
    """A file twice: by stations and by an element's values."""
    path = f"{folder}/map.svg"
    for words in ([], ["--element", "012101"]):
        assert command("map", SYNOP, SYNOP, "-o", path, *words) == (
            0, f"{path}: 8 reports, 4 stations, 2024-01-15 12:00; 8 of 8 drawn at 4 positions\n", "")
        assert "8 of 8 drawn at 4 positions" in marks(read(path))[1]


def bars(svg):
    """The texts of a picture but for those of its axes, and how many colours its marks have."""
    texts = [text for text in marks(svg)[1] if not text.endswith(("°", "°N", "°E", "°S", "°W"))]
    return texts, len(set(re.findall(r"<use [^>]*style=\"fill: (#[0-9a-f]{6}); stroke: #000000; stroke-width: 0.3", svg.decode())))


def test_numbers_that_are_all_equal_have_no_bar():
    """The title has the value of an element."""
    points = [(52.5, 13.4, 3), (48.1, 11.6, 3)]
    assert bars(drawn(points)) == (["a title"], 1)
    points = [(52.5, 13.4, 277.25), (48.1, 11.6, 277.25)]
    assert bars(drawn(points, label="012101 T [K]", is_count=False)) == (["a title", "012101 T [K]: 277.25"], 1)
    assert "012101 T [K]" in bars(drawn([*points, (50.0, 10.0, 280.0)], label="012101 T [K]", is_count=False))[0]


@pytest.mark.parametrize("least, greatest, bounds", [
    (1, 2, [0.5, 1.5, 2.5]), (3, 12, [2.5, 3.5, 4.5, 5.5, 6.5, 7.5, 8.5, 9.5, 10.5, 11.5, 12.5]), (1, 11, None), (1, 500, None), (7, 100000, None)])
def test_counts_have_steps_of_whole_numbers(least, greatest, bounds):
    """Up to ten of them a step each; of more all steps are alike, and have the least and the greatest count."""
    found = drawing.steps_of(least, greatest)
    if bounds:
        assert found == bounds
        return
    widths = {high - low for low, high in zip(found, found[1:])}
    assert all(each == int(each) for each in found) and len(widths) == 1 and 3 <= len(found) <= 13
    assert found[0] <= least < found[1] and found[-2] <= greatest < found[-1]


def test_a_count_has_the_colour_of_its_step():
    points = [(40.0 + at, 10.0, count) for at, count in enumerate([1, 1, 2, 4])]
    texts, colours = bars(drawn(points))
    assert (colours, texts) == (3, ["a title", "1", "2", "3", "4", "reports"])
    points = [(40.0 + at, 10.0, count) for at, count in enumerate([1, 2, 3, 90, 91, 200])]
    assert bars(drawn(points))[1] == 3


def test_islands_of_the_coarse_coast_have_four_points(monkeypatch):
    """Smaller ones are left out, and the picture has the others."""
    from cartopy import feature
    drawn_lands = []
    monkeypatch.setattr(feature, "ShapelyFeature", lambda lands, *_, **__: drawn_lands.append(lands))

    class Axes:
        def add_feature(self, _):
            pass

    drawing.add_land(Axes(), None)
    counts = [len(each.exterior.coords) - 1 for each in drawn_lands[0]]
    every = [len(each.exterior.coords) - 1 for each in feature.GSHHSFeature(scale="coarse", levels=[1]).geometries()]
    assert min(counts) == 4 and sorted(counts) == sorted(each for each in every if each > 3) and len(counts) < len(every)


def test_borders_are_drawn_if_they_are_there(monkeypatch, folder):
    """A shapefile with one line, from 8 to 12 degrees: the finest of two."""
    import cartopy
    import shapefile
    points = [(50.0, 8.0, 1), (52.0, 12.0, 2)]
    without = drawn(points)
    os.makedirs(f"{folder}/shapefiles/natural_earth/cultural")
    for scale, lines in (("50m", [[[8.0, 51.0], [12.0, 51.0]]]), ("110m", [[[8.0, 51.0], [12.0, 51.0]]] * 9)):
        with shapefile.Writer(f"{folder}/shapefiles/natural_earth/cultural/ne_{scale}_admin_0_boundary_lines_land") as file:
            file.field("name", "C")
            for line in lines:
                file.line([line])
                file.record("a border")
    monkeypatch.setitem(cartopy.config, "data_dir", folder)
    assert drawn(points).count(b"<path") == without.count(b"<path") + 1


def test_a_picture_is_sharp_and_short():
    """It has at least 1,200 pixels in a row, of 256 colours: an octet each before they are packed."""
    from PIL import Image
    octets = drawn([(52.5, 3.4, 1), (48.1, 11.6, 3)], "png")
    picture = Image.open(io.BytesIO(octets))
    assert (picture.mode, picture.format) == ("P", "PNG") and picture.width >= 1200 and len(octets) < 60000


def test_values_are_those_of_the_rows():
    """Each value is at the position of its subset."""
    with contents.Files([SYNOP]) as files:
        chosen = bufr_map.Chosen("temperature/air temperature", None)
        _, reports = summary.read(files, element=chosen.element, with_values=True)
    assert reports.values == list(bufr.rows(SYNOP, ["005001", "006001", "012101"]))
    assert chosen.word == "012001 or 012101"
    with contents.Files([f"{TOP}/examples/standard/temp.bufr"]) as files:
        chosen = bufr_map.Chosen("007004#3", None)
        _, reports = summary.read(files, element=chosen.element, with_values=True)
    assert [value for *_, value in reports.values] == [93800.0]


def test_pictures_of_each_kind(monkeypatch):
    """They are the same each time, but for names in an SVG; and nothing is asked for elsewhere."""
    def refuse(*_, **__):
        raise AssertionError("a socket")
    monkeypatch.setattr(socket, "getaddrinfo", refuse)
    monkeypatch.setattr(socket.socket, "connect", refuse)
    points = [(52.5, 13.4, 1), (48.1, 11.6, 3)]
    for kind, head in (("png", b"\x89PNG"), ("svg", b"<?xml"), ("pdf", b"%PDF-")):
        first, again = drawn(points, kind), drawn(points, kind)
        assert first.startswith(head) and (first == again or kind == "svg" and len(first) == len(again))
    count, texts = marks(drawn(points))
    assert count == 2 and {"a title", "reports", "1", "2", "3"} <= set(texts)
    # land is drawn: the coast of Europe has corners there, the middle of an ocean none
    assert len(drawn(points)) > len(drawn([(0.0, -140.0, 1), (4.0, -135.0, 3)])) + 20000


@pytest.mark.parametrize("positions, extent", [
    ([(50.0, 10.0)], (8.5, 11.5, 48.5, 51.5)), ([(40.0, 0.0), (50.0, 40.0)], (-3.2, 43.2, 33.4, 56.6)),
    ([(-10.0, 100.0), (40.0, 110.0)], (76.0, 134.0, -14.0, 44.0)),
    ([(89.0, 0.0), (90.0, 1.0)], (-1.5, 2.5, 87.5, 90)), ([(0.0, -100.0), (0.0, 81.0)], None),
    ([(-60.0, 0.0), (51.0, 0.0)], None), ([], None)])
def test_what_a_map_shows(positions, extent):
    """A margin of 8 percent or 1.5 degrees, at most twice as wide as high, and never higher than wide; else all the world."""
    found = drawing.extent_of([(*each, 1) for each in positions])
    assert found == (pytest.approx(extent) if extent else None)


def test_what_is_missing_is_told(monkeypatch, folder):
    import cartopy
    for name, package in (("matplotlib", "python3-matplotlib"), ("cartopy", "python3-cartopy")):
        with monkeypatch.context() as patch:
            patch.setitem(sys.modules, name, None)
            with pytest.raises(bufr.Missing) as told:
                drawing.need("bufr-map")
        assert str(told.value) == \
            f"bufr-map needs the package {name}, which {sys.executable} does not have (Debian: {package}, for /usr/bin/python3)"
    for name in ("pre_existing_data_dir", "repo_data_dir", "data_dir"):
        monkeypatch.setitem(cartopy.config, name, folder)
    with pytest.raises(bufr.Missing, match="^bufr-map needs coastlines for cartopy, which .* does not have .Debian: python-cartopy-data, for "):
        drawing.need("bufr-map")


def test_debians_python_draws_where_this_one_lacks_a_package(monkeypatch, folder):
    """It gets the same words; not if it lacks one too, nor if none is missing."""
    other, ran = write(f"{folder}/python3", "#!/bin/sh\nexit 0\n"), []
    os.chmod(other, 0o755)
    monkeypatch.setattr(drawing, "DEBIAN", other)
    monkeypatch.setattr(sys, "argv", ["bufr-map", "-o", "map.png"])
    monkeypatch.setattr(os, "execv", lambda *words: ran.append(words))
    drawing.run_by_debian("map")
    assert ran == []
    monkeypatch.setitem(sys.modules, "cartopy", None)
    drawing.run_by_debian("map")
    assert ran == [(other, [other, f"{TOP}/python/bufr/__main__.py", "map", "-o", "map.png"])]
    write(other, "#!/bin/sh\nexit 1\n")
    drawing.run_by_debian("map")
    monkeypatch.setattr(drawing, "DEBIAN", f"{folder}/none")
    drawing.run_by_debian("map")
    assert len(ran) == 1


def test_faults(folder):
    """A fault is one line, and an older map stays."""
    old = write(f"{folder}/map.png", b"old")
    for words, said in (
            ([f"{TOP}/README.md"], f"{TOP}/README.md: skipped {len(read(TOP + '/README.md'))} octets at 0: text\n"
             "bufr-map: no report has a position"),
            ([f"{TOP}/examples/bulletin.bufr"], "no report has a position"),
            ([SYNOP, "--element", "012102"], "no report has a position and a value of 012102"),
            ([SYNOP, "--element", "air temperature"], "no report has a position and a value of 012002; these have its name in theirs: "
             "TEMPERATURE/AIR TEMPERATURE (012001, 012101); AIR TEMPERATURE AT 2 M (012004, 012104); PWLR ESTIMATED RETRIEVAL ERROR FOR "
             "SURFACE AIR TEMPERATURE (040069)"),
            ([SYNOP, "--element", "centre"], "--element is a descriptor or the name of an element, not centre"),
            ([SYNOP, "--element", "12101"], "a descriptor has six digits: write 012101 for 12101"),
            ([folder], f"{folder} is a folder: name its files, as {folder}/*")):
        assert command("map", "-o", old, *words) == (2, "", f"bufr-map: {said}\n")
    assert command("map", "-o", f"{folder}/map.gif", SYNOP) == (2, "", f"bufr-map: {folder}/map.gif ends in none of .png, .svg and .pdf\n")
    assert read(old) == b"old"
    status, _, error = command("map", "-o", f"{folder}/none/map.png", given=message(46) + read(SYNOP))
    assert (status, error) == (2, f"bufr-map: cannot write {folder}/none/map.png: No such file or directory\n")
