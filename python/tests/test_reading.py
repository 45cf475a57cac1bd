"""bufr-annotate, bufr-to-json and bufr-from-json, on BUFR files and on listings."""
import fcntl
import glob
import json
import os
import re
import subprocess
import sys
import termios
import time

import pytest

from conftest import TOP, command, message, named, read, run, text, write

SAMPLES = [path for path in sorted(glob.glob(f"{TOP}/examples/*.bufr") + glob.glob(f"{TOP}/examples/standard/*.bufr"))]
# A head whose fourteen numbers differ, and flags that are compressed and not observed.
LISTING = """message
section1 11 12 13 14 15 16 17 18
time 2019 2 3 4 5 6
flags compressed
descriptors 012101
subset
012101 273.15
end
"""


def shown(path):
    """What the program shows of a file, and the places of its messages that are read or refused."""
    from bufr.programs import launcher
    done = subprocess.run(["sh", launcher(), "show", path], capture_output=True)
    return done.stdout.decode("latin-1")


def objects(out):
    return [json.loads(line, parse_float=str, parse_int=str) for line in out.splitlines()]


def test_all_names_and_numbers_of_the_head():
    status, out, error = command("to-json", given=LISTING.encode())
    assert (status, error) == (0, "")
    assert json.loads(out) == {
        "section1": {"originating_centre": 11, "originating_sub_centre": 12, "update_sequence_number": 13, "data_category": 14,
                     "international_data_sub_category": 15, "local_data_sub_category": 16, "master_table_version": 17,
                     "local_table_version": 18},
        "time": {"year": 2019, "month": 2, "day": 3, "hour": 4, "minute": 5, "second": 6},
        "observed": False, "compressed": True, "descriptors": ["012101"],
        "subsets": [[{"descriptor": "012101", "name": "TEMPERATURE/AIR TEMPERATURE", "unit": "K", "value": 273.15}]]}


@pytest.mark.parametrize("flags, observed, compressed", [
    ("flags", False, False), ("flags observed", True, False), ("flags compressed", False, True),
    ("flags observed compressed", True, True)])
def test_each_pair_of_flags(flags, observed, compressed):
    found = json.loads(command("to-json", given=LISTING.replace("flags compressed", flags).encode())[1])
    assert (found["observed"], found["compressed"]) == (observed, compressed)


def test_a_bufr_file_as_json(folder):
    """Its messages have the file and their places; what is refused is told, and the status is 1."""
    parts = [b"\x01\r\r\nIUSZ01 LSSW 151200\r\r\n", message(12), read(f"{TOP}/examples/refused.bufr"), message(47), message(46)]
    places = [sum(map(len, parts[:at])) for at in range(len(parts))]
    path = write(f"{folder}/a file", b"".join(parts))
    for words, given, name in (([path], None, path), (["-"], b"".join(parts), "-"), ([], b"".join(parts), "-")):
        status, out, error = command("to-json", *words, given=given)
        found = objects(out)
        assert status == 1
        assert [(each["file"], each["place"], list(each)[:2]) for each in found] == [
            (name, str(places[1]), ["file", "place"]), (name, str(places[4]), ["file", "place"])]
        assert f"bufr-to-json: {name}: refused {places[2]} M2 Edition 5\n" in error
        assert f"no table here reads version 47 of the message at {places[3]}\n" in error and error.count("\n") == 2
    with open(path, "rb") as file:
        done = subprocess.run([sys.executable, f"{TOP}/scripts/bufr-to-json"], stdin=file, capture_output=True, text=True)
    assert done.returncode == 1 and [each["place"] for each in objects(done.stdout)] == [str(places[1]), str(places[4])]


def test_messages_that_come_one_after_the_other():
    """The second one comes once the first one is taken from the pipe."""
    with subprocess.Popen([sys.executable, f"{TOP}/scripts/bufr-annotate"], stdin=subprocess.PIPE, stdout=subprocess.PIPE) as process:
        process.stdin.write(message(46))
        process.stdin.flush()
        while any(fcntl.ioctl(process.stdin, termios.FIONREAD, bytes(4))):
            time.sleep(0.01)
        process.stdin.write(message(13))
        process.stdin.close()
        assert process.stdout.read().count(b"\nend\n") == 2
    assert process.returncode == 0


def test_samples(folder):
    """A BUFR file gives what its listing gives, and its JSON, in each form, gives the listing again."""
    path = write(f"{folder}/samples", b"noise".join(read(sample) for sample in SAMPLES))
    listing = shown(path)
    kept = "".join(line for line in listing.splitlines(True) if line[0] != "#")
    listed = write(f"{folder}/listing", listing)
    count = listing.count("# refused ")
    assert count and kept.count("message\n") > 15
    status, out, error = command("annotate", path)
    assert "".join(line for line in out.splitlines(True) if not line.startswith("#")) == kept
    assert status == 1 and error.count(": refused ") == count
    assert command("annotate", listed)[1] == out
    found = objects(command("to-json", path)[1])
    places = [each.pop("place") for each in found]
    assert {each.pop("file") for each in found} == {path}
    rows = run(os.environ["BUFR_LS"], "-c", "place,reason", path)[1].splitlines()[1:]
    refused = {line.split()[2] for line in listing.splitlines() if line.startswith("# refused")}
    assert places == [row.split(",")[0] for row in rows if row.split(",")[0] not in refused]
    assert objects(command("to-json", listed)[1]) == found
    for words in ([], ["--nested"], ["--compact"], ["--compact", "--nested"]):
        made = command("to-json", *words, path)[1]
        assert command("from-json", given=made.encode()) == (0, kept, "")
    # a message without a subset has no line of its own
    some = "".join(part for part in re.findall(r"message\n.*?\nend\n", kept, re.S) if "\nsubset\n" in part)
    for words in (["--lines"], ["--lines", "--nested", "--compact"]):
        assert command("from-json", given=command("to-json", *words, path)[1].encode()) == (0, some, "")


def test_names_of_the_version_of_each_message(folder):
    """020003 is named otherwise in version 13 than in 46, as are others: the names are those of the message."""
    rows = {version: dict(line.split(",")[:1] + [line] for line in text(f"{TOP}/tables/table_b_{version}.csv").splitlines())
            for version in (13, 46)}
    import bufr.tables as tables
    old, new = (tables.Tables(*tables.table_paths(version)) for version in (13, 46))
    differ = sorted(key for key in old.elements if key in new.elements and old.name(key) != new.name(key)
                    and old.elements[key][1:] == new.elements[key][1:])
    assert "012101" in differ or differ and rows
    key = "012101" if "012101" in differ else differ[0]
    body = "section1 98 0 0 0 2 0 {} 0\ntime 2024 1 15 12 0 0\nflags\ndescriptors {}\nsubset\n{} missing\nend\n"
    listing = "".join("message\n" + body.format(version, key, key) for version in (12, 46, 13, 45))
    wanted = [old.name(key), new.name(key), old.name(key), new.name(key)]
    for path in (write(f"{folder}/listing", listing), encoded(folder, listing)):
        assert [each["subsets"][0][0]["name"] for each in objects(command("to-json", path)[1])] == wanted
        notes = [line for line in command("annotate", path)[1].splitlines() if line.startswith("# ")]
        assert notes == [f"# {name} [{new.unit(key)}]" for name in wanted]
        for words, variables, name in ((["--tables", "7"], {}, wanted[0]), ([], {"BUFR_TABLES": "30"}, wanted[1]),
                                       (named(13), {"BUFR_TABLES": "46"}, wanted[0])):
            found = objects(command("to-json", *words, path, **variables)[1])
            assert {each["subsets"][0][0]["name"] for each in found} == {name}
    status, out, error = command("annotate", given=listing.replace(" 45 0\n", " 47 0\n").encode())
    assert (status, error) == (2, "bufr-annotate: no table here reads version 47\n")


def encoded(folder, listing):
    from bufr.programs import launcher
    path = write(f"{folder}/to encode", listing)
    done = subprocess.run(["sh", launcher(), "encode", path], capture_output=True)
    assert done.returncode == 0, done.stderr
    return write(f"{folder}/encoded", done.stdout)


def test_records_of_a_table_file(folder):
    """Columns in any order, of which the first counts if one comes twice; headers again, short rows and rows without what is needed."""
    from bufr.tables import records
    path = write(f"{folder}/table", "\xef\xbb\xbfx, FXY ,BUFR_Unit,FXY\n1, 001001,m ,009009\n2\nx,FXY,BUFR_Unit ,FXY\n3,001002\n4,,,\nx,FXY,K,FXY\n")
    assert list(records(path, ["FXY", "BUFR_Unit"], "none")) == [["001001", "m", ""], ["001002", "", ""], ["FXY", "K", ""]]
    assert list(records(path, ["BUFR_Unit"], "FXY")) == [["m", "001001"], ["K", "FXY"]]
    assert list(records(path, ["x"])) == [["1"], ["2"], ["3"], ["4"], ["x"]]
    with pytest.raises(Exception, match=f"^{path} has no column none$"):
        list(records(path, ["FXY", "none"]))


def test_levels_of_replications():
    """Each replication is a list of its turns: fixed, delayed, within each other, and without a turn."""
    listing = LISTING.replace("012101\nsubset\n012101 273.15", "103002 101000 031001 012101 101000 031001 002001 102002 005002 006002"
                              "\nsubset\n031001 2\n012101 1.00\n012101 2.00\n031001 0\n031001 0\n005002 1.00\n006002 2.00\n"
                              "005002 3.00\n006002 4.00").replace(" 17 18", " 46 0")
    status, out, error = command("to-json", "--nested", "--compact", given=listing.encode())
    assert (status, error) == (0, "")
    assert json.loads(out)["subsets"] == [[
        [[["031001", 2], [[["012101", 1.0]], [["012101", 2.0]]]], [["031001", 0], []]], ["031001", 0], [],
        [[["005002", 1.0], ["006002", 2.0]], [["005002", 3.0], ["006002", 4.0]]]]]
    assert command("from-json", given=out.encode())[1] == listing
    for old, new, line in (("031001 2\n", "031001 1\n", 9), ("end\n", "002001 1\nend\n", 16), ("006002 4.00\n", "", 15)):
        status, out, error = command("to-json", "--nested", given=listing.replace(old, new).encode())
        assert status == 2 and error.startswith(f"bufr-to-json: line {line}: the descriptors ask for "), error


def test_a_compact_field_has_no_name():
    out = command("to-json", "--compact", given=LISTING.encode())[1]
    assert out.endswith('"descriptors":["012101"],"subsets":[[["012101",273.15]]]}\n') and ": " not in out


def test_a_local_element_in_annotate():
    """Its line says to its end that Table B does not have it; characters of 205 are counted."""
    status, out, error = command("annotate", given=b"message\n206009 063255\n063255 17\n205003 \"a\\22 \"\n")
    assert (status, error) == (0, "")
    assert "\n# not in Table B\n063255 17\n" in out and '\n# 3 characters [CCITT IA5]\n205003 "a\\22 "\n' in out


@pytest.mark.parametrize("name", ["annotate", "to-json", "lint"])
def test_what_is_neither_a_listing_nor_has_a_message(name, folder):
    for octets in (bytes(range(256)), b"GRIB\0\0\0\1" + bytes(1000), b"BUFR and no message"):
        path = write(f"{folder}/file", octets)
        status, out, error = command(name, path)
        assert (status, out) == (2, "")
        assert error in (f"bufr-{name}: {path} has no message, and is no listing\n", f"bufr-lint: {path} is no listing\n")
    assert command("annotate", f"{folder}/none")[2].startswith(f"bufr-annotate: cannot open {folder}/none: No such file")
    assert command("annotate", folder)[0] == 2


def test_refused_messages_of_a_listing_are_told():
    given = b"# refused 7 M2 Edition 5\n" + LISTING.encode()
    for name in ("annotate", "to-json"):
        status, out, error = command(name, given=given)
        assert (status, error) == (1, f"bufr-{name}: -: refused 7 M2 Edition 5\n") and "273.15" in out


def test_a_program_that_is_killed_is_told(folder):
    killed = write(f"{folder}/bufr", "#!/bin/sh\nkill -KILL $$\n")
    os.chmod(killed, 0o755)
    path = write(f"{folder}/file", message(46))
    status, out, error = command("to-json", *named(46), path, BUFR=killed)
    assert (status, error) == (2, "bufr-to-json: bufr was killed by signal 9\n")
    status, out, error = command("to-json", *named(46), path, BUFR=f"{folder}/none")
    assert (status, error) == (2, f"bufr-to-json: cannot run {folder}/none: No such file or directory\n")


@pytest.mark.parametrize("old, new, said", [
    ("273.15", "2.7e2", "the number 2.7e2 is not spelt as listings spell one"), ("273.15", "true", "true is no value of a field"),
    ("273.15", '"\u20ac"', 'the text "\\u20ac" has a character that is no octet'), ('"012101", "name"', '"x", "name"', "a field has"),
    ('"observed"', 'observed"', "Expecting property name"), ('"month": 2', '"moon": 2', "time has not the numbers year, month")])
def test_faults_of_json(old, new, said):
    made = command("to-json", given=LISTING.encode())[1]
    status, out, error = command("from-json", given=b"\n" + made.replace(old, new).encode())
    assert (status, out) == (2, "") and error.startswith(f"bufr-from-json: line 2: {said}")


def test_texts_come_back():
    listing = LISTING.replace("012101\nsubset\n012101 273.15", '205003 205001\nsubset\n205003 "a\\22\\ff"\n205001 "\\5c"\n'
                              'subset\n205003 missing\n205001 " "').replace("flags", "local1 00ff\nsection2\nflags")
    for words in ([], ["--lines"], ["--nested", "--compact"]):
        assert command("from-json", given=command("to-json", *words, given=listing.encode())[1].encode())[1] == listing


def test_lines_that_were_filtered():
    """What is left of a message is one message; subsets of two are never joined."""
    two = LISTING.replace("end\n", "subset\n012101 1.00\nsubset\n012101 2.00\nend\n")
    lines = command("to-json", "--lines", given=(two + LISTING + two).encode())[1].splitlines(True)
    assert len(lines) == 7
    head = LISTING.split("subset")[0]
    for kept, wanted in (([1, 2], ["1.00 2.00"]), ([2, 3], ["2.00", "273.15"]), ([1, 5], ["1.00", "1.00"]), ([0, 4], ["273.15"] * 2),
                         ([0, 6], ["273.15 2.00"])):
        out = command("from-json", given="".join(lines[at] for at in kept).encode())[1]
        assert out == "".join(head + "".join(f"subset\n012101 {value}\n" for value in each.split(" ")) + "end\n"
                              for each in wanted)


@pytest.mark.parametrize("octets, count", [(message(46, descriptor="3FFF"), 1), (message(47), 1), (message(46, descriptor="3FFF") * 2, 2)])
def test_each_refusal_alone_makes_the_status(octets, count, folder):
    path = write(f"{folder}/file", message(46) + octets)
    for name in ("annotate", "to-json"):
        status, out, error = command(name, path)
        assert status == 1 and error.count("\n") == count and "273.15" in out
    listed = write(f"{folder}/listing", shown(path))
    assert command("to-json", listed)[0] == int(octets[21] == 46)
