"""bufr-lint and bufr-skeleton."""
import os
import re

import pytest

from conftest import TOP, command, named, read, run, text, write

DESCRIPTORS = "301001 301011 301012 012101 010004 001011 101000 031001 002001 206001 063255"
# Each field with its value, and what a skeleton's note above it says.
NOTES = """# WMO BLOCK NUMBER [Numeric]: a number without a point, from 0 to 126, or missing
001001 10
# WMO STATION NUMBER [Numeric]: a number without a point, from 0 to 1022, or missing
001002 384
# YEAR [a]: a number without a point, from 0 to 4094, or missing
004001 2024
# MONTH [mon]: a number without a point, from 0 to 14, or missing
004002 1
# DAY [d]: a number without a point, from 0 to 62, or missing
004003 15
# HOUR [h]: a number without a point, from 0 to 30, or missing
004004 12
# MINUTE [min]: a number without a point, from 0 to 62, or missing
004005 30
# TEMPERATURE/AIR TEMPERATURE [K]: a number with 2 digits after the point, from 0.00 to 655.34, or missing
012101 273.15
# PRESSURE [Pa]: a number in steps of 10, without a point, from 0 to 163820, or missing
010004 101320
# SHIP OR MOBILE LAND STATION IDENTIFIER [CCITT IA5]: a text of 9 characters in quotes, or missing
001011 "DBFR     "
# DELAYED DESCRIPTOR REPLICATION FACTOR [Numeric]: a count without a point, from 0 to 255, never missing
031001 1
# TYPE OF STATION [Code table]: a number without a point, from 0 to 2, or missing
002001 1
# not in Table B: a number without a point, from 0 to 1, never missing
063255 0
"""
HEAD = f"message\nsection1 98 0 0 0 2 0 46 0\ntime 2024 1 15 12 0 0\nflags observed\ndescriptors {DESCRIPTORS}\nsubset\n"
GOOD = HEAD + "".join(line + "\n" for line in NOTES.splitlines() if line[0] != "#") + "end\n"
TEMPERATURE = "012101 TEMPERATURE/AIR TEMPERATURE [K]: wanted a number with 2 digits after the point, from 0.00 to 655.34, or missing"
PRESSURE = "010004 PRESSURE [Pa]: wanted a number in steps of 10, without a point, from 0 to 163820, or missing"
SHIP = "001011 SHIP OR MOBILE LAND STATION IDENTIFIER [CCITT IA5]: wanted a text of 9 characters in quotes, or missing"
BLOCK = "001001 WMO BLOCK NUMBER [Numeric]: wanted a number without a point, from 0 to 126, or missing"
COUNT = "031001 DELAYED DESCRIPTOR REPLICATION FACTOR [Numeric]: wanted a count without a point, from 0 to 255, never missing"
LOCAL = "063255 not in Table B: wanted a number without a point, from 0 to 1, never missing"
# A line, what is put in its place, and what is said of it. `encode` says L2 BadValue of all.
VALUES = [
    ("012101 273.15", "012101 273", TEMPERATURE, "it has no digits after the point"),
    ("012101 273.15", "012101 273.1", TEMPERATURE, "it has 1 digit after the point"),
    ("012101 273.15", "012101 273.150", TEMPERATURE, "it has 3 digits after the point"),
    ("012101 273.15", "012101 -0.01", TEMPERATURE, "it is too small"),
    ("012101 273.15", "012101 655.35", TEMPERATURE, "it is too great"),
    ("012101 273.15", "012101 -0.00", TEMPERATURE, "zero has no sign"),
    ("012101 273.15", "012101 0273.15", TEMPERATURE, "it is no number as listings spell one"),
    ("012101 273.15", "012101 273,15", TEMPERATURE, "it is no number as listings spell one"),
    ("010004 101320", "010004 101325", PRESSURE, "it is no multiple of 10"),
    ("010004 101320", "010004 101320.0", PRESSURE, "it has 1 digit after the point"),
    ("010004 101320", "010004 163830", PRESSURE, "it is too great"),
    ('001011 "DBFR     "', '001011 "DBFR"', SHIP, "it has 4 characters"),
    ('001011 "DBFR     "', '001011 "DBFR      "', SHIP, "it has 10 characters"),
    ('001011 "DBFR     "', "001011 DBFR     ", SHIP, "it is no text in quotes"),
    ('001011 "DBFR     "', '001011 "DBFR\\2G    "', SHIP,
     "it has a character that is written as \\ and two lower-case hexadecimal digits"),
    ('001011 "DBFR     "', '001011 "DB\\46R     "', SHIP, "it has a character that is written as itself"),
    ('001011 "DBFR     "', '001011 "' + "\\ff" * 9 + '"', SHIP, "its octets are all ff, which is missing"),
    ("001001 10", "001001 127", BLOCK, "it is too great"),
    ("001001 10", "001001 10.0", BLOCK, "it has 1 digit after the point"),
    ("031001 1", "031001 missing", COUNT, "it can't be missing"),
    ("031001 1", "031001 256", COUNT, "it is too great"),
    ("063255 0", "063255 missing", LOCAL, "it can't be missing"),
    ("063255 0", "063255 2", LOCAL, "it is too great")]


def refused(folder, listing):
    """The refusal of a listing by the program, and its line."""
    path = write(f"{folder}/listing", listing)
    error = run(os.environ["BUFR"], "encode", *named(46), path)[2]
    found = re.fullmatch(r"bufr: listing: (L\d) \w+ (\d+).*\n", error)
    return (found[1], int(found[2])) if found else error


def test_a_good_listing(folder):
    assert refused(folder, GOOD) == ""
    assert command("lint", f"{folder}/listing") == (0, "", "")
    assert command("lint", given=(GOOD * 2).replace("\n", "\r\n").encode()) == (0, "", "")
    for line in (line for line in GOOD.splitlines() if re.match(r"\d{6} ", line)):
        assert (refused(folder, GOOD.replace(line, f"{line[:6]} missing")) == "") == (line[:6] not in ("031001", "063255"))


@pytest.mark.parametrize("old, new, wanted, why", VALUES, ids=[row[1] for row in VALUES])
def test_bad_values(old, new, wanted, why, folder):
    number = GOOD.splitlines().index(old) + 1
    assert refused(folder, GOOD.replace(f"\n{old}\n", f"\n{new}\n")) == ("L2", number)
    path = f"{folder}/listing"
    assert command("lint", path) == (1, f"{path}:{number}: {wanted}; found {new[7:]}: {why}\n", "")


def test_the_least_and_the_greatest_values_are_taken(folder):
    for old, *bounds in (("012101 273.15", "0.00", "655.34"), ("010004 101320", "0", "163820"), ("001001 10", "0", "126"),
                         ("063255 0", "0", "1"), ("004002 1", "0", "14")):
        for bound in bounds:
            assert refused(folder, GOOD.replace(old, f"{old[:6]} {bound}")) == ""
            assert command("lint", f"{folder}/listing")[0] == 0


def test_all_bad_lines_of_a_message_and_those_of_the_next():
    listing = GOOD.replace("001001 10", "001001 1000").replace("012101 273.15", "012101 1") + GOOD.replace("subset\n001001 10\n",
                                                                                                         "subset\n") + "noise\n" \
        + GOOD.replace("002001 1", "002001 x")
    status, out, error = command("lint", given=listing.encode())
    lines = out.splitlines()
    size = GOOD.count("\n")
    assert (status, error, len(lines)) == (1, "", 5)
    assert lines[0] == f"-:7: {BLOCK}; found 1000: it is too great"
    assert lines[1].startswith("-:14: 012101 ")
    assert lines[2] == f"-:{size + 7}: wanted 001001 WMO BLOCK NUMBER [Numeric]: a number without a point, from 0 to 126, or missing; " \
        "found 001002 384"
    assert lines[3] == f"-:{2 * size}: wanted the line message; found noise"
    assert re.match(rf"-:{2 * size + 18}: 002001 ", lines[4])


@pytest.mark.parametrize("old, new, line, said", [
    ("section1 98 0", "section1 98", 2, "wanted 8 numbers after section1 (originating_centre, originating_sub_centre"),
    ("section1 98 0", "section1 65536 0", 2, "originating_centre: wanted a number from 0 to 65535; found 65536"),
    (" 46 0\n", " 256 0\n", 2, "master_table_version: wanted a number from 0 to 255; found 256"),
    (" 46 0\n", " 46 00\n", 2, "local_table_version: wanted a number from 0 to 255; found 00"),
    ("time 2024 1", "time 2024 256", 3, "month: wanted a number from 0 to 255; found 256"),
    ("time", "tyme", 3, "wanted the line time; found tyme 2024"), ("flags observed", "flags seen", 4, "wanted one of flags, flags ob"),
    ("flags", "local1 0\nflags", 4, "wanted two hexadecimal digits"), ("descriptors 301001", "descriptors 30100", 5, "wanted desc"),
    ("063255\n", "222000\n", 5, "wanted descriptors that have a template (X7 Dangling206 206001); found"),
    ("end\n", "", 20, "wanted the rest of the message; found the end of the listing"),
    ("063255 0\nend", "end", 19, "wanted 063255 not in Table B: a number"), ("end\n", "001001 1\nend\n", 20, "wanted the line subset")])
def test_bad_lines(old, new, line, said, folder):
    listing = GOOD.replace(old, new, 1)
    path = write(f"{folder}/listing", listing)
    assert refused(folder, listing)[1] == line
    status, out, error = command("lint", path)
    assert (status, error) == (1, "") and out.startswith(f"{path}:{line}: {said}"), out


def test_what_a_skeleton_leaves_is_warned_of(folder):
    listing = GOOD.replace("section1 98", "section1 0").replace("time 2024 1 15 12 0 0", "time 2000 1 1 0 0 0")
    status, out, error = command("lint", given=listing.encode())
    assert (status, error) == (0, "")
    assert out == "-:1: warning: the originating centre is 0: write the centre that makes the message\n" \
        "-:3: warning: the time is 2000-01-01 00:00:00: write that of the data, or call bufr-lint --set-time\n"
    status, out, error = command("lint", "--set-time", given=("# first\n" + listing + GOOD).encode())
    wanted = listing.replace("time 2000 1 1 0 0 0", "time 2024 1 15 12 30 0") + GOOD.replace(" 12 0 0", " 12 30 0")
    assert (status, out) == (0, "# first\n" + wanted)
    assert error == "-:2: warning: the originating centre is 0: write the centre that makes the message\n"
    # of these fields no time can be made
    status, out, error = command("lint", "--set-time", given=listing.replace("004004 12", "004004 missing").encode())
    assert (status, out) == (0, listing.replace("004004 12", "004004 missing"))
    assert error.endswith("\n-:3: warning: the time is 2000-01-01 00:00:00, and the fields 004001 to 004004 of the first subset have no other: "
                          "write that of the data\n")


@pytest.mark.parametrize("name", ["pl\xe4in", "\u017eluna", "pl\udce4in"])
def test_lint_prints_the_octets_of_a_name(folder, name):
    """In UTF-8, or whatever they are."""
    path = write(f"{folder}/{name}", GOOD.replace("section1 98", "section1 0").replace("time 2024 1 15 12", "time 2000 1 1 0"))
    shown = os.fsencode(path).decode("latin-1")
    assert command("lint", path) == (0, f"{shown}:1: warning: the originating centre is 0: write the centre that makes the message\n"
                                        f"{shown}:3: warning: the time is 2000-01-01 00:00:00: write that of the data, or call "
                                        "bufr-lint --set-time\n", "")
    assert command("lint", "--set-time", path)[:2] == (0, GOOD.replace("section1 98", "section1 0").replace(" 12 0 0", " 12 30 0"))


def test_lint_takes_the_tables_of_the_version(folder):
    """014001 has another width in version 13 than in 46."""
    from bufr import tables, wanted
    sizes = {}
    for version in (13, 46):
        field = next(tables.Tables(*tables.table_paths(version)).fields(["014001"], None))
        sizes[version] = int(wanted.bounds(field)[1])
    assert sizes[13] != sizes[46]
    for version, size in sizes.items():
        listing = f"message\nsection1 98 0 0 0 2 0 {version} 0\ntime 2024 1 15 12 0 0\nflags\ndescriptors 014001\nsubset\n014001 "
        assert command("lint", given=f"{listing}{size}\nend\n".encode())[0] == 0
        assert command("lint", given=f"{listing}{size + 1000}\nend\n".encode())[0] == 1


def test_operators_in_what_is_wanted(folder):
    for words, line, said in (
            ("201129 012101", "012101 1.0", "with 2 digits after the point, from 0.00 to 1310.70, or missing"),
            ("202129 012101", "012101 1.0", "with 3 digits after the point, from 0.000 to 65.534, or missing"),
            ("207002 010009", "010009 1", "with 2 digits after the point, from -1000.00 to "),
            ("208003 001011", '001011 ""', "a text of 3 characters in quotes, or missing"),
            ("205002", '205002 ""', "205002 2 characters [CCITT IA5]: wanted a text of 2 characters in quotes, or missing"),
            ("206012 063255", "063255 4096", "063255 not in Table B: wanted a number without a point, from 0 to 4094, or missing")):
        listing = HEAD.replace(DESCRIPTORS, words) + line + "\nend\n"
        assert refused(folder, listing) == ("L2", 7)
        assert said in command("lint", given=listing.encode())[1]


def test_samples_have_no_bad_line(folder):
    paths = [path for path in sorted(os.listdir(f"{TOP}/examples/standard")) if path.endswith(".txt") and "check" not in path]
    listing = "".join(text(f"{TOP}/examples/standard/{path}") for path in paths)
    assert command("lint", given=listing.encode("latin-1")) == (0, "", "")
    assert len(paths) > 4


def test_a_skeleton_with_notes():
    status, out, error = command("skeleton", "--notes", "--centre", "98 0", "--time", "2024 1 15 12 0 0", *DESCRIPTORS.split())
    wanted = re.sub(r"^(\d{6}) (?!.*#).*$", r"\1 missing", NOTES, flags=re.M).replace("031001 missing", "031001 1").replace(
        "063255 missing", "063255 0")
    assert (status, error) == (0, "") and out == HEAD.replace(" 2 0 46", " 0 0 46") + wanted + "end\n"
    plain = command("skeleton", "--notes", "012101")[1].splitlines()
    assert plain[1] == "# the first number is the originating centre: write yours, or name it by --centre"
    assert plain[3].startswith("# the time of the data: write it, name it by --time, or call bufr-lint --set-time")
    assert [line for line in plain if line[0] != "#"] == command("skeleton", "012101")[1].splitlines()


def test_a_field_of_one_bit_and_a_count_have_numbers():
    out = command("skeleton", "206001", "063255", "102000", "031000", "206001", "063255", "101000", "031001", "012101")[1]
    assert out.endswith("subset\n063255 0\n031000 1\n063255 0\n031001 1\n012101 missing\nend\n")


@pytest.mark.parametrize("words, variables, version", [
    ([], {}, "46"), (["--tables", "12"], {}, "12"), (["--tables", "0"], {}, "0"), (["--tables", "18"], {}, "18"),
    (["--tables", "33"], {}, "33"), ([], {"BUFR_TABLES": "12"}, "12"), (["--tables", "14"], {"BUFR_TABLES": "12"}, "14"),
    (named(13), {"BUFR_TABLES": "12"}, "13"), (named(46), {}, "46")])
def test_the_version_of_a_skeleton(words, variables, version):
    """Section 1 has the version that was asked for."""
    status, out, error = command("skeleton", *words, "012101", **variables)
    assert (status, error) == (0, "") and out.splitlines()[1] == f"section1 0 0 0 0 0 0 {version} 0"


def test_how_many_subsets():
    assert command("skeleton", "--subsets", "3", "012101")[1].count("subset\n012101 missing\n") == 3
    for count in ("0", "-1", "x", "1.5"):
        status, out, error = command("skeleton", f"--subsets={count}", "012101")
        assert (status, out) == (2, "") and f"{count} is not a number from 1 on" in error
