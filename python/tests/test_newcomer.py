"""What a newcomer meets: files that are no BUFR, words that are no columns, times that are not whole. Each is told."""
import bz2
import gzip
import lzma
import os
import re
import resource
import sys
import threading
import warnings
import zipfile

import pandas
import pytest

import bufr
import makers
from conftest import TOP, command, message, read, run, write

SYNOP = f"{TOP}/examples/standard/synop.bufr"
TEMP = f"{TOP}/examples/standard/temp.bufr"
CUT = "a message that is cut or broken"


def zipped(folder):
    with zipfile.ZipFile(f"{folder}/zip", "w", zipfile.ZIP_DEFLATED) as file:
        file.write(SYNOP, "synop.bufr")
    return read(f"{folder}/zip")


def losses(folder):
    """Octets, and what is lost of them: place, length and why."""
    synop = read(SYNOP)
    broken = synop[:-4] + b"7778"
    return {
        "cut": (synop[:300], [(0, 300, CUT)]),
        "cut at 5": (synop[:5], [(0, 5, CUT)]),
        "broken": (b"\x01\r\r\nISMD01 EDZW\r\r\n" + broken, [(18, len(broken), CUT)]),
        "after": (message(46) + synop[:300], [(49, 300, CUT)]),
        "two before": (b"noise" + synop[:300] + synop[:99] + message(46), [(5, 300, CUT), (305, 99, CUT)]),
        "between": (message(46) + b"\r\r\n" + synop[:300] + message(13), [(52, 300, CUT)]),
        "noise": (b"\0no message\n" * 20, [(0, 240, "no message")]),
        "text": (b"no message\n" * 20, [(0, 220, "text")]),
        "a text with the word": (b"this is no BUFR.\n", [(0, 17, "text")]),
        "a text that ends with the word": ("Flüge in BUFR\r\r\n\x03".encode(), [(0, 18, "text")]),
        "a bulletin of text": (b"\x01\r\r\nSMDL01 EDZW 151200\r\r\nNIL= BUFR\r\r\n\x03", [(0, 38, "text")]),
        "gzip": (gzip.compress(synop), [(0, None, "packed by gzip; unpack it")]),
        "bzip2": (bz2.compress(synop), [(0, None, "packed by bzip2; unpack it")]),
        "xz": (lzma.compress(synop), [(0, None, "packed by xz; unpack it")]),
        "zip": (zipped(folder), [(0, None, "packed by zip; unpack it")]),
        "empty": (b"", []),
        "bulletins": (b"\x01\r\r\nISMD01 EDZW BUFR\r\r\n" + message(46) + b"\r\r\n\x03" + message(46) + b"BUFR\r\r\nNNNN", []),
        # the word is no message, wherever it is
        "words": (b"NIL= BUFR\r\r\n\x03" + message(46) + b"\r\r\n\x03NIL= BUFR\x01\r\r\n" + message(46) + b"\r\r\n\x03NIL= BUFR", []),
        "words and lines": (message(46) + b"BUFR\r\r\n\x03" + message(46) + b"BUFR=\r\n", []),
        "a word at the end of a bulletin": (message(46) + b"BUFR\r\n\x03", []),
        "cut at 7": (message(46) + synop[:7], [(49, 7, CUT)]),
        # a message in another's text begins nothing
        "within": (synop[:100] + b"BUFR\0\0\x0c\x04" + synop[108:], [])}


@pytest.mark.parametrize("name", [
    "cut", "cut at 5", "cut at 7", "broken", "after", "two before", "between", "noise", "text", "a text with the word",
    "a text that ends with the word", "a bulletin of text", "gzip", "bzip2", "xz", "zip", "empty", "bulletins", "words", "words and lines",
    "a word at the end of a bulletin", "within"])
def test_skipped_octets_are_told(name, folder):
    """Where they are a loss: in `refusals` of each call and by `strict`, also among other files, and on standard error."""
    octets, wanted = losses(folder)[name]
    path = write(f"{folder}/a file", octets)
    wanted = [(place, len(octets) if length is None else length, why) for place, length, why in wanted]
    told = [(path, place, f"skipped {length} octets: {why}") for place, length, why in wanted]
    for tables in (None, 46):
        assert bufr.read(path, ["012101"], tables=tables).attrs["refusals"] == told
        found = []
        list(bufr.messages(path, tables, refusals=found))
        assert found == told
        checked = [each for each in bufr.check(path, tables) if (each.refusal or "").startswith("skipped")]
        assert checked == [bufr.reading.Checked(place, length, None, None, f"skipped {length} octets: {why}")
                           for place, length, why in wanted]
        for call in (lambda: list(bufr.rows(path, ["012101"], tables=tables, strict=True)),
                     lambda: list(bufr.messages(path, tables, strict=True))):
            if told:
                with pytest.raises(bufr.Refused, match=re.escape(f"{path}: at {told[0][1]} {told[0][2]}")) as raised:
                    call()
                assert (raised.value.file, raised.value.place, raised.value.reason) == told[0]
            else:
                call()
    found = []
    got = list(bufr.rows([SYNOP, path, SYNOP, path], ["file", "message"], refusals=found))
    assert found == sorted(told * 2) and [row for row in got if row[0] == SYNOP] == list(bufr.rows([SYNOP] * 2, ["file", "message"]))
    if name == "within":
        # its fields are others, but it is a message
        return
    for each in ("to-json", "annotate"):
        for words, given, file in (([path], None, path), (["-"], octets, "-")):
            status, _, error = command(each, *words, given=given)
            if octets.count(b"7777"):
                assert (status, error) == (0, "".join(f"bufr-{each}: {file}: skipped {length} octets at {place}: {why}\n"
                                                      for place, length, why in wanted))
            elif wanted and wanted[0][2] not in ("no message", "text"):
                assert (status, error) == (2, f"bufr-{each}: {file} has no message, and is no listing: {wanted[0][2]}\n")


def test_what_is_stray_in_a_sample():
    """`BUFR` stands before a heading and at the end, as a word (examples/standard/make-listings)."""
    path = f"{TOP}/examples/standard/bulletins.bufr"
    begun = [found.start() for found in re.finditer(b"BUFR", read(path))]
    assert len(begun) == 4 and read(path)[begun[1] - 6:].startswith(read(path)[begun[3] - 6:])
    assert [(each.place, each.refusal is None) for each in bufr.check(path)] == [(begun[0], True), (begun[2], True)]
    assert bufr.read(path, ["012101"], strict=True).attrs["refusals"] == []


def test_losses_across_pieces(folder):
    """A beginning that two pieces part is found, and many files are more than can be open."""
    from bufr import skipped
    synop = read(SYNOP)
    for at in range(skipped.PIECE - 12, skipped.PIECE + 3):
        path = write(f"{folder}/file", b" " * at + synop[:300] + message(46))
        assert [(each.place, each.length) for each in bufr.check(path)] == [(at, 300), (at + 300, 49)]
    names = [write(f"{folder}/{number}", message(46) + synop[:300]) for number in range(300)]
    limits, found = resource.getrlimit(resource.RLIMIT_NOFILE), []
    resource.setrlimit(resource.RLIMIT_NOFILE, (200, limits[1]))
    try:
        assert list(bufr.rows(names, ["012101"], refusals=found)) == [(273.15,)] * 300
    finally:
        resource.setrlimit(resource.RLIMIT_NOFILE, limits)
    assert [name for name, _, _ in found] == names


def test_a_pipe_is_read_once(folder):
    """Its messages are read, and check tells that it has none."""
    os.mkfifo(f"{folder}/pipe")

    def fed(octets, call):
        writer = threading.Thread(target=write, args=(f"{folder}/pipe", octets))
        writer.start()
        got = call(f"{folder}/pipe")
        writer.join()
        return got

    assert fed(b"noise" + message(46), lambda path: list(bufr.rows(path, ["012101"]))) == [(273.15,)]
    assert fed(b"noise" + message(46), bufr.check) == [bufr.reading.Checked(5, 49, 1, 0, None)]
    assert fed(b"noise", bufr.check) == [bufr.reading.Checked(0, 5, None, None, "skipped 5 octets: no message")]


def test_a_stream_that_grows_has_no_loss(folder):
    """What is appended after the beginning of a call is not judged."""
    from bufr.skipped import Skipped
    for size in (0, 3, 5, 20, 48):
        path = write(f"{folder}/stream", message(46) + message(46)[:size])
        skipped = Skipped(path)
        write(path, message(46) * 3)
        skipped.message(0, 49)
        skipped.message(49, 49)
        assert skipped.end() == []
    skipped = Skipped(path)
    skipped.message(0, 49)
    assert [(each.place, each.length) for each in skipped.end()] == [(49, 49), (98, 49)]


@pytest.mark.parametrize("files, said", [
    ("{folder}", "{folder} is a folder: name its files, as glob.glob(\"{folder}/*.bufr\") does"),
    (["{folder}"], "{folder} is a folder: "), ("{folder}/*.bufr", "{folder}/*.bufr is a pattern, and no file: "),
    (7, "files is a path or a list of paths, not 7"), ([7], "a file is named by a path, not by 7"),
    (None, "files is a path or a list of paths, not None")])
def test_what_is_no_file(files, said, folder):
    files = [each.format(folder=folder) if isinstance(each, str) else each for each in files] if isinstance(files, list) else \
        files.format(folder=folder) if isinstance(files, str) else files
    said = "^" + re.escape(said.format(folder=folder))
    for call in (lambda: bufr.rows(files, ["012101"]), lambda: bufr.read(files, ["012101"]), lambda: bufr.add(f"{folder}/out", files)):
        with pytest.raises(bufr.BufrError, match=said):
            call()
    if isinstance(files, str):
        for call in (lambda: bufr.check(files), lambda: bufr.messages(files)):
            with pytest.raises(bufr.BufrError, match=said):
                call()


@pytest.mark.parametrize("how, said", [
    ({"each": "012101#2"}, "each is a descriptor without #, since all fields with it have a row: write 012101 for 012101#2"),
    ({"each": ["012101"]}, "each is a descriptor or the name of an element, not ['012101']"),
    ({"columns": ("012101", 12101)}, "a column is a word in quotes, not 12101"), ({"columns": 7}, "columns is a list of words"),
    ({"columns": {"t": None}}, "a column is a word in quotes, not None"),
    ({"tables": "46"}, "tables is a version from 0 to 46, as a number, or a pair of paths of Tables B and D, not '46'"),
    ({"tables": ("a",)}, "tables is a version from 0 to 46"), ({"tables": (1, 2)}, "tables is a version from 0 to 46"),
    ({"tables": 4.5}, "tables is a version from 0 to 46"),
    ({"columns": ["latitude (high accuracy)#2"]}, "# follows a descriptor alone, not a name: write 005001#2"),
    ({"columns": ["no name#2"]}, "# follows a descriptor alone, not a name"),
    ({"columns": ["012101#0"]}, "the number after # counts from 1, without zeros before it: write 012101#1 for 012101#0"),
    ({"columns": ["012101#02"]}, "the number after # counts from 1, without zeros before it: write 012101#2 for 012101#02"),
    ({"columns": ["012101#"]}, "the number after # counts from 1"), ({"columns": ["012101#x"]}, "the number after # counts from 1"),
    ({"columns": ["12101"]}, "a descriptor has six digits: write 012101 for 12101"),
    ({"columns": ["999999"]}, "no element has the descriptor 999999"), ({"columns": ["012191"]}, "no element has the descriptor 012191"),
    ({"columns": ["301011"]}, "301011 is a sequence: a column is one of its elements; it has 004001 004002 004003"),
    ({"columns": ["101000"]}, "101000 is a replication, and no element"), ({"columns": ["201130"]}, "201130 is an operator"),
    ({"each": "301011"}, "301011 is a sequence"), ({"columns": ["012101", "301999"]}, "no element has the descriptor 301999"),
    ({"columns": ["air temprature"]}, "no element has the name air temprature; these are like it: AIR TEMPERATURE (012002); "),
    ({"columns": {"012101": "t"}}, "the name of a column comes first: write {'t': '012101'} for {'012101': 't'}"),
    ({"columns": {"012101#2": "kelvin", "001001": "block"}}, "the name of a column comes first: write {'kelvin': '012101#2'} for "),
    ({"columns": {"004001": "year"}}, "the name of a column comes first: write {'year': '004001'} for {'004001': 'year'}"),
    ({"columns": ["012101", "time"]}, "time is no element: time=True makes it the first column; year to second are those of section 1"),
    ({"columns": {"when": "time"}}, "time is no element: time=True"), ({"each": "time"}, "time is no element: time=True"),
    ({"columns": ["lat"]}, "no element has the name lat; these have it in theirs: LATITUDE (HIGH ACCURACY) (005001, 027001); "
     "LATITUDE (COARSE ACCURACY) (005002, 027002); LATITUDE "),
    ({"columns": ["cloud cover"]}, "no element has the name cloud cover; these have it in theirs: CLOUD COVER (TOTAL) (020010)")])
def test_words_are_told_what_is_wanted(how, said):
    for call in (bufr.rows, bufr.read):
        with pytest.raises(bufr.BufrError, match="^" + re.escape(said)) as told:
            call(SYNOP, **{"columns": ["012101"], **how})
        assert "\n" not in str(told.value)


def warned(call):
    with warnings.catch_warnings(record=True) as found:
        warnings.simplefilter("always")
        got = call()
    assert all(each.filename == __file__ for each in found)
    return got, [str(each.message) for each in found]


def test_the_help_of_read_says_its_parameters():
    """Each with its kind; help of another call is not wanted."""
    import inspect
    for call in (bufr.read, bufr.rows):
        assert re.findall(r"^    (\w+) : ", call.__doc__, re.M) == list(inspect.signature(call).parameters)
    assert "As of" not in bufr.read.__doc__


def test_a_column_that_no_message_has_is_warned_of():
    """Once, by its name and its descriptors; none where a field is there and missing, for local elements, or without rows."""
    files = [SYNOP, TEMP]
    frame, said = warned(lambda: bufr.read(files, {"t": "air temperature", "k": "012101", "no": "063255"}))
    assert len(frame) > 2 and frame["t"].isna().all()
    assert said[0].startswith("the column t is empty: no message has a field 012002; these have its name in theirs: "
                              "TEMPERATURE/AIR TEMPERATURE (012001, 012101); ")
    assert said[1:] == ["the column no is empty: no message has a field 063255"]
    rows, said = warned(lambda: list(bufr.rows(files, ["temperature", "012001#2"], tables=46)))
    assert said[0].startswith("the column temperature is empty: no message has a field 012023; these have its name in theirs: "
                              "TEMPERATURE/AIR TEMPERATURE (012001, 012101); ")
    assert said[1:] == ["the column 012001#2 is empty: no message has a field 012001"]
    assert warned(lambda: list(bufr.rows(TEMP, ["005001", "012101#999", "file", "temperature/air temperature"], each="012101")))[1] == []
    assert warned(lambda: list(bufr.rows(f"{TOP}/README.md", ["012002"])))[1] == []
    assert warned(lambda: list(bufr.rows(SYNOP, ["001001"], each="air temperature")))[1][:1] == [
        "there is no row: no message has a field 012002 for each"]


@pytest.mark.parametrize("hour, fields, time", [
    ("301012", "004004 12\n004005 30\n", "2024-02-29 12:30:00"), ("301012", "004004 12\n004005 missing\n", None),
    ("301013", "004004 12\n004005 30\n004006 5\n", "2024-02-29 12:30:05"), ("301013", "004004 12\n004005 30\n004006 missing\n", None),
    ("004004", "004004 12\n", "2024-02-29 12:00:00"), ("004004", "004004 missing\n", None), ("004004", "004004 24\n", None),
    ("001001", "001001 10\n", None)])
def test_a_time_is_never_invented(hour, fields, time, folder):
    """A minute or a second without a field is 0; a missing one makes the time missing."""
    listing = f"message\nsection1 98 0 0 0 2 0 46 0\ntime 2024 1 15 12 0 0\nflags\ndescriptors 301011 {hour} 012101\nsubset\n004001 2024\n" \
        f"004002 2\n004003 29\n{fields}012101 273.15\nend\n"
    status, octets, error = makers.encoded(write(f"{folder}/listing", listing))
    assert status == 0, error
    path = write(f"{folder}/file", octets)
    for each in (None, "012101"):
        frame = bufr.read(path, ["012101"], each, time=True)
        assert len(frame) == 1 and (pandas.isna(frame["time"][0]) if time is None else frame["time"][0] == pandas.Timestamp(time))


def test_pandas_is_asked_for_by_the_python_that_lacks_it(folder):
    write(f"{folder}/pandas.py", "raise ImportError('no pandas')\n")
    script = f"import bufr\ntry:\n    bufr.read({SYNOP!r}, ['012101'])\nexcept bufr.Missing as e:\n    print(e)\n"
    assert run(sys.executable, "-c", script, PYTHONPATH=f"{folder}:{TOP}/python") == (
        0, f"bufr.read needs the package pandas, which {sys.executable} does not have (Debian: python3-pandas, for /usr/bin/python3)\n", "")


def test_the_page_names_a_path_that_holds_from_other_folders():
    """A relative PYTHONPATH finds the checkout's own folder as a package, from its parent."""
    for page in ("docs/PYTHON.md", "python/README.md"):
        found = re.findall(r"PYTHONPATH=(\S+)", read(f"{TOP}/{page}").decode())
        assert found and all(each.startswith("$PWD/python") for each in found), page
