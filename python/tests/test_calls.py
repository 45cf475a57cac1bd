"""The calls of the package: read, rows, messages, check, encode, add and merge."""
import datetime
import glob
import math
import os
import random
import re
import subprocess
import sys

import pandas
import pytest

import bufr
import makers
from conftest import TOP, command, message, named, read, run, text, write

SAMPLES = sorted(glob.glob(f"{TOP}/examples/*.bufr") + glob.glob(f"{TOP}/examples/standard/*.bufr"))
FILES = 200


@pytest.fixture(scope="module")
def files(tmp_path_factory):
    """Files of random messages, their messages and their listings."""
    folder = str(tmp_path_factory.mktemp("random"))
    found = makers.files_of(random.Random(64), folder, FILES)
    paths = [path for path, _ in found]
    # one call shows all: a line with its name is before the messages of each
    shown = command("by-version", "--run", "bufr show", *paths)[1]
    listings = dict(re.findall(r"^# (\S+\.bufr)\n((?:(?!# /).*\n)*)", shown, re.M))
    return [(path, messages, listings[path]) for path, messages in found]


def listing_of(path):
    return makers.shown(path)


def again(listing, folder):
    """What `bufr show f | bufr encode` writes."""
    return makers.encoded(write(f"{folder}/again", listing))


def test_random_messages_are_encoded_as_their_listings_are(files, folder):
    status, octets, error = again("".join(listing for _, _, listing in files), folder)
    assert status == 0, error
    wanted, alike = makers.split(octets), 0
    got = makers.split(bufr.encode(message for path, _, _ in files for message in bufr.messages(path)))
    for path, messages, listing in files:
        count = len(messages)
        assert listing.count("message\n") == count and got[:count] == wanted[:count], path
        alike += got[:count] == messages
        got, wanted = got[count:], wanted[count:]
    assert not got and alike > FILES / 2


@pytest.mark.parametrize("path", SAMPLES, ids=os.path.basename)
def test_samples_are_encoded_as_their_listings_are(path, folder):
    listing = listing_of(path)
    status, octets, error = again(listing, folder)
    assert status == 0 and bufr.encode(bufr.messages(path)) == octets
    if os.path.exists(path.replace(".bufr", ".txt")) and text(path.replace(".bufr", ".txt")) == listing:
        refusals = []
        list(bufr.messages(path, refusals=refusals))
        assert len([reason for _, _, reason in refusals if not reason.startswith("skipped ")]) == listing.count("# refused")


def test_messages_are_what_to_json_prints(files):
    import json
    for path, _, listing in files[:20]:
        printed = [json.loads(line, parse_float=str, parse_int=str) for line in command("to-json", path)[1].splitlines()]
        got = [json.loads(json.dumps(each, default=str), parse_float=str, parse_int=str) for each in bufr.messages(path)]
        assert len(got) == len(printed)
        for mine, theirs in zip(got, printed):
            for here, there in zip(mine.pop("subsets"), theirs.pop("subsets")):
                assert [{**each, "value": None} for each in here] == [{**each, "value": None} for each in there]
                for one, other in zip(here, there):
                    a, b = one["value"], other["value"]
                    assert a == b or float(a) == float(b)
            assert mine == theirs and list(mine) == list(theirs)


def expected(listing, columns, each):
    """The rows that a listing has, by the words of the manual: slowly, and written apart."""
    found = []
    for one in re.findall(r"message\n.*?\nend\n", listing, re.S):
        for subset in re.split(r"^subset\n", one[:-4], flags=re.M)[1:]:
            fields = [(line[:6], line[7:]) for line in subset.splitlines()]
            starts = [at for at, (word, _) in enumerate(fields) if word == each]
            spans = [(at, end) for at, end in zip(starts, starts[1:] + [len(fields)])] if each else [(0, len(fields))]
            first = spans[0][0] if spans else 0
            for start, end in spans:
                row = []
                for column in columns:
                    word, _, number = column.partition("#")
                    here = [value for key, value in fields[start:end] if key == word]
                    before = [value for key, value in fields[:first] if key == word] if each else []
                    if number:
                        row.append(here[int(number) - 1] if len(here) >= int(number) else "missing")
                    else:
                        row.append((here[:1] or before[-1:] or ["missing"])[0])
                found.append(row)
    return found


def same(cell, word):
    """Whether a cell has the value that a listing spells."""
    if word == "missing":
        return cell is None
    if word[0] == '"':
        octets = re.sub(r"\\(..)", lambda found: chr(int(found[1], 16)), word[1:-1]).rstrip(" \0")
        return cell == (octets or None)
    return str(cell) == word if isinstance(cell, int) else float(cell) == float(word)


def test_rows_are_what_the_listing_shows(files):
    rng = random.Random(65)
    count = 0
    for path, _, listing in files:
        descriptors = sorted({line[:6] for line in listing.splitlines() if line[:1].isdigit()}) or ["012101"]
        columns = list(dict.fromkeys(rng.choice(descriptors) + rng.choice(["", "", "#1", "#2"]) for _ in range(4)))
        each = rng.choice([None, rng.choice(descriptors)])
        got, wanted = list(bufr.rows(path, columns, each)), expected(listing, columns, each)
        assert len(got) == len(wanted), path
        for mine, theirs in zip(got, wanted):
            assert all(map(same, mine, theirs)), (path, columns, each, mine, theirs)
        count += len(got)
    assert count > FILES


def test_rows_of_a_sounding():
    """A row for each level: with the station in each, and an element that a level lacks missing."""
    listing = text(f"{TOP}/examples/standard/temp.txt")
    columns = ["001002", "007004", "012101", "011001"]
    got = list(bufr.rows(f"{TOP}/examples/standard/temp.bufr", columns, "007004"))
    wanted = expected(listing, columns, "007004")
    assert len(got) == len(wanted) > 10 and all(all(map(same, *pair)) for pair in zip(got, wanted))


def test_columns_of_each_kind():
    path = f"{TOP}/examples/bulletin.bufr"
    words = ["file", "message", "place", "subset", "centre", "sub_centre", "update", "category", "international", "local_category",
             "master_version", "local_version", "year", "month", "day", "hour", "minute", "second", "observed", "compressed"]
    assert list(bufr.rows(path, words)) == [
        (path, number, place, 1, 98, 0, 0, 0, 2, 0, 37, 0, 2024, 1, 15, 12, 0, 0, True, False) for number, place in ((1, 18), (2, 84))]
    assert list(bufr.rows(path, {"t": "TEMPERATURE/AIR TEMPERATURE", "block": "wmo block number"}))[0] == (273.15, 10)
    assert list(bufr.rows([path], ["012101"], time=True)) == [(datetime.datetime(2024, 1, 15, 12, 0), 273.15)] * 2


@pytest.mark.parametrize("columns, each, said", [
    ("012101", None, "columns is a list of words"), ([], None, "columns is a list of words"),
    (["AIR TEMP"], None, "no element has the name AIR TEMP; these have it in theirs: "), (["noname"], None, "no element has the name noname"),
    (["012101", "012101"], None, "a column is named twice"), (["012101"], "place", "each is a descriptor or the name")])
def test_words_that_are_no_columns(columns, each, said):
    with pytest.raises(bufr.BufrError, match=re.escape(said)):
        bufr.rows(f"{TOP}/examples/bulletin.bufr", columns, each)


def test_refusals(folder):
    """Each is told with its file, place and reason, in the order of the places; strict raises at the first."""
    parts = [message(12), message(46, descriptor="3FFF"), message(47), message(46), read(f"{TOP}/examples/refused.bufr")]
    places = [sum(map(len, parts[:at])) for at in range(len(parts))]
    path, other = write(f"{folder}/a file", b"".join(parts)), write(f"{folder}/other", message(47) + b"noise" + message(14))
    wanted = [(path, places[1], "X1 UnknownElement 063255"), (path, places[2], "no table here reads version 47"),
              (path, places[4], "M2 Edition 5"), (other, 0, "no table here reads version 47")]
    frame = bufr.read([path, other], ["file", "message", "place", "012101"])
    assert frame.attrs["refusals"] == wanted
    assert frame.values.tolist() == [[path, 1, 0, 273.15], [path, 4, places[3], 273.15], [other, 2, 54, 273.15]]
    found = []
    assert [each["place"] for each in bufr.messages(path, refusals=found)] == [0, places[3]] and found == wanted[:3]
    for call in (lambda: list(bufr.rows([path], ["012101"], strict=True)), lambda: bufr.read(path, ["012101"], strict=True),
                 lambda: list(bufr.messages(path, strict=True))):
        with pytest.raises(bufr.Refused) as told:
            call()
        assert (told.value.file, told.value.place, told.value.reason) == wanted[0] and "X1 UnknownElement" in str(told.value)
    with pytest.raises(bufr.Refused) as told:
        list(bufr.rows(other, ["012101"], strict=True))
    assert told.value.place == 0
    checked = bufr.check(path)
    assert checked == [bufr.reading.Checked(0, 49, 1, 0, None), bufr.reading.Checked(places[1], 49, None, None, wanted[0][2]),
                       bufr.reading.Checked(places[2], 49, None, None, wanted[1][2]), bufr.reading.Checked(places[3], 49, 1, 0, None),
                       bufr.reading.Checked(places[4], len(parts[4]), None, None, "M2 Edition 5")]


def test_types_of_a_frame(folder):
    listing = "message\nsection1 98 0 0 0 2 0 46 0\ntime 2024 1 15 12 0 0\nflags\ndescriptors 001002 012101 001011 301011 301013\n" \
        'subset\n001002 7\n012101 273.15\n001011 "AB\\00\\00     "\n004001 2024\n004002 2\n004003 29\n004004 12\n004005 30\n' \
        '004006 7\nsubset\n001002 8\n012101 missing\n001011 "         "\n004001 2023\n004002 2\n004003 29\n004004 12\n' \
        "004005 30\n004006 5\n"
    status, octets, error = makers.encoded(write(f"{folder}/listing", listing + "end\n"))
    assert status == 0, error
    frame = bufr.read(write(f"{folder}/file", octets), {"station": "001002", "kelvin": "012101", "ship": "001011", "no": "005001"},
                      time=True)
    assert list(frame.columns) == ["time", "station", "kelvin", "ship", "no"]
    assert [str(kind) for kind in frame.dtypes] == ["datetime64[ns]", "int64", "float64", "object", "object"]
    assert frame["time"][0] == pandas.Timestamp(2024, 2, 29, 12, 30, 7) and frame["time"].isna().tolist() == [False, True]
    assert frame["station"].tolist() == [7, 8] and frame["kelvin"][0] == 273.15 and math.isnan(frame["kelvin"][1])
    assert frame["ship"].tolist() == ["AB", None] and frame["no"].tolist() == [None, None]
    empty = bufr.read(write(f"{folder}/empty", b"noise"), ["012101"], time=True)
    assert len(empty) == 0 and list(empty.columns) == ["time", "012101"]
    assert empty.attrs["refusals"] == [(f"{folder}/empty", 0, "skipped 5 octets: text")]


def test_tables_that_are_named(folder):
    """A version, or two files; each message's own by default, in one call over files of several."""
    paths = []
    for version in (13, 46):
        listing = f"message\nsection1 98 0 0 0 2 0 {version} 0\ntime 2024 1 15 12 0 0\nflags\ndescriptors 014001\nsubset\n014001 "
        status, octets, error = makers.encoded(write(f"{folder}/listing", f"{listing}0\nend\n"))
        assert status == 0, error
        paths.append(write(f"{folder}/{version}", octets))
    value = {key: run(os.environ["BUFR"], "show", *named(key[1]), f"{folder}/{key[0]}")[1].split("014001 ")[-1].split("\n")[0]
             for key in ((13, 13), (13, 46), (46, 13), (46, 46))}
    cell = {key: None if not re.fullmatch(r"-?\d+", word) else int(word) for key, word in value.items()}
    assert [row[0] for row in bufr.rows(paths, ["014001"])] == [cell[13, 13], cell[46, 46]]
    for tables, version in ((7, 13), (30, 46), ((f"{TOP}/tables/table_b_13.csv", f"{TOP}/tables/table_d_13.csv"), 13)):
        refusals = []
        got = [row[0] for row in bufr.rows(paths, ["014001"], tables=tables, refusals=refusals)]
        assert got == [cell[key, version] for key in (13, 46) if "refused" not in value[key, version]][:len(got)]
        assert len(got) + len(refusals) == 2
    with pytest.raises(bufr.BufrError, match="no table here reads version 47"):
        bufr.rows(paths, ["014001"], tables=47)


def test_errors_have_the_line_of_the_program(folder):
    killed = write(f"{folder}/bufr", "#!/bin/sh\nkill -KILL $$\n")
    os.chmod(killed, 0o755)
    good = f"{TOP}/examples/bulletin.bufr"
    for call in (lambda path: list(bufr.rows(path, ["012101"])), lambda path: list(bufr.messages(path)), bufr.check,
                 lambda path: bufr.read(path, ["012101"]), lambda path: bufr.add(f"{folder}/out", path)):
        with pytest.raises(bufr.BufrError, match=f"^cannot open {folder}/none: No such file or directory$"):
            call(f"{folder}/none")
        with pytest.raises(bufr.BufrError, match=f"^{folder} is a folder: "):
            call(folder)
    for call in (lambda: list(bufr.rows(good, ["012101"], tables=46)), lambda: bufr.check(good, tables=46),
                 lambda: list(bufr.messages(good, tables=46)), lambda: bufr.merge(f"{folder}/out", good, tables=46)):
        with pytest.MonkeyPatch.context() as patch:
            patch.setenv("BUFR", killed)
            patch.delenv("BUFR_SELECT", raising=False)
            with pytest.raises(bufr.BufrError, match="^bufr was killed by signal 9$"):
                call()
            patch.setenv("BUFR", f"{folder}/nothing")
            with pytest.raises(bufr.BufrError, match=f"^cannot run {folder}/nothing: No such file or directory$"):
                call()
    with pytest.raises(bufr.BufrError, match="^not an archive input 1 at 0$"):
        bufr.merge(f"{folder}/out", f"{TOP}/examples/refused.bufr", tables=46)
    assert not os.path.exists(f"{folder}/out")


def test_faults_of_what_is_encoded():
    good = list(bufr.messages(f"{TOP}/examples/sequences.bufr"))

    def changed(value, at=-1):
        made = [{**each, "subsets": [[dict(field) for field in subset] for subset in each["subsets"]]} for each in good]
        made[0]["subsets"][0][at]["value"] = value
        return made

    assert bufr.encode(good) == read(f"{TOP}/examples/sequences.bufr")
    assert bufr.encode(changed(float("nan"))) == bufr.encode(changed(None)) != bufr.encode(good)
    for value in (273.15, "x", 300, 655.34):
        if value == "x":
            with pytest.raises(bufr.BufrError, match=re.escape('message 1: 012101 TEMPERATURE/AIR TEMPERATURE [K]: wanted a number with 2')):
                bufr.encode(changed(value))
        else:
            assert len(bufr.encode(changed(value))) == 62
    for value, why in ((273.155, "it has 3 digits after the point"), (655.35, "it is too great"), (-0.01, "it is too small")):
        with pytest.raises(bufr.BufrError, match=f"found {value}: {why}"):
            bufr.encode(changed(value))
    short = changed(1)
    short[0]["subsets"][0].pop()
    with pytest.raises(bufr.BufrError, match="message 1: the descriptors ask for 012101; found nothing"):
        bufr.encode(short)
    long = changed(273.15)
    long[0]["subsets"][0].append({"descriptor": "012101", "value": 273.15})
    with pytest.raises(bufr.BufrError, match="message 1: the descriptors ask for no field; found 012101"):
        bufr.encode(long)
    with pytest.raises(bufr.BufrError, match="message 2 is no message: KeyError 'section1'"):
        bufr.encode([*good, {}])
    with pytest.raises(bufr.BufrError, match="message 1: no table here reads version 47"):
        bufr.encode([{**good[0], "section1": {**good[0]["section1"], "master_table_version": 47}}])
    assert bufr.encode([]) == b""
    assert bufr.encode(good, compressed=True) == makers_compressed()


def makers_compressed():
    done = subprocess.run(["sh", bufr.programs.launcher(), "encode", "--compressed", f"{TOP}/examples/sequences.txt"],
                          capture_output=True)
    return done.stdout


def test_archives(folder):
    """Their octets are those of the commands; counts and progress are told."""
    samples = [f"{TOP}/examples/standard/{name}.bufr" for name in ("synop", "ship", "temp")] + [f"{TOP}/examples/edition_3.bufr"]
    called = []
    got = bufr.add(f"{folder}/day_{{}}", samples, progress=lambda octets, total: called.append((octets, total)))
    total = sum(map(os.path.getsize, samples))
    assert [each.version for each in got] == [13, 46] and [each.path for each in got] == [f"{folder}/day_13", f"{folder}/day_46"]
    assert called[-1] == (total, total) and called == sorted(called) and all(0 <= octets <= total for octets, _ in called)
    run("sh", bufr.programs.launcher(), "add", "-o", f"{folder}/wanted_{{}}", *samples)
    for version in (13, 46):
        assert read(f"{folder}/day_{version}") == read(f"{folder}/wanted_{version}")
    merged = bufr.merge(f"{folder}/all", [f"{folder}/day_46"] * 2)
    assert merged == [bufr.writing.Merged(f"{folder}/all", None, 2, got[1].reports)] and read(f"{folder}/all") == read(f"{folder}/day_46")
    one = bufr.add(f"{folder}/one", f"{TOP}/examples/refused.bufr", tables=46)
    assert one == [bufr.writing.Added(f"{folder}/one", None, 1, 1, 0)]


@pytest.mark.parametrize("files", [[], (), iter(())])
def test_an_archive_of_no_file_is_refused(folder, files):
    with pytest.raises(bufr.BufrError, match="^there is no file to merge$"):
        bufr.merge(f"{folder}/out", files)
    with pytest.raises(bufr.BufrError, match="^there is no file to add$"):
        bufr.add(f"{folder}/out", files)
    assert os.listdir(folder) == []


def test_paths_of_octets(folder):
    """A path may be bytes, as os.listdir(b"..") gives it. The programs take names in UTF-8 alone."""
    name = "pl\xe4in.bufr"
    path = write(f"{folder}/{name}", read(f"{TOP}/examples/bulletin.bufr"))
    octets = os.fsencode(path)
    assert list(bufr.rows(octets, ["file", "place"])) == list(bufr.rows([octets], ["file", "place"])) == [(path, 18), (path, 84)]
    assert bufr.read(octets, ["012101"])["012101"].tolist() == [273.15] * 2
    assert len(bufr.check(octets)) == len(list(bufr.messages(octets))) == 2
    tables = [each.encode() for each in named(46)[1::2]]
    assert bufr.check(octets, tables=tables) == bufr.check(path)
    out = os.fsencode(f"{folder}/out_{{}}")
    assert bufr.add(out, octets) == [bufr.writing.Added(f"{folder}/out_46", 46, 2, 0, 1)]
    assert bufr.merge(out, [f"{folder}/out_46".encode()] * 2) == [bufr.writing.Merged(f"{folder}/out_46", 46, 2, 1)]
    latin = os.path.join(os.fsencode(folder), b"pl\xe4in.bufr")
    with open(latin, "wb") as file:
        file.write(message(46))
    for each in (latin, os.fsdecode(latin), [path, latin]):
        for call in (lambda: bufr.rows(each, ["place"]), lambda: bufr.read(each, ["place"]), lambda: bufr.add(f"{folder}/out", each)):
            with pytest.raises(bufr.BufrError, match="^the name of a file has to be UTF-8: " + re.escape(repr(latin)) + "$"):
                call()


def test_progress_of_an_archive_comes_while_it_is_read(folder):
    path = write(f"{folder}/stream", read(f"{TOP}/examples/sequences.bufr") * 100000)
    slow = write(f"{folder}/slow", f"#!/bin/sh\nexec 3<'{path}'\nhead -c 1000000 <&3 >/dev/null\n"
                 f"while ! test -e {folder}/seen; do sleep 0.05; done\nexec '{os.environ['BUFR']}' \"$@\"\n")
    os.chmod(slow, 0o755)
    called = []

    def progress(octets, total):
        called.append(octets)
        if 0 < octets < total:
            write(f"{folder}/seen", "")
    with pytest.MonkeyPatch.context() as patch:
        patch.setenv("BUFR", slow)
        bufr.add(f"{folder}/out", path, tables=46, progress=progress)
    assert any(0 < octets < os.path.getsize(path) for octets in called) and called[-1] == os.path.getsize(path)


def test_messages_come_one_at_a_time(folder):
    """The first comes while most of the file is not read: an iterator that is left ends its programs."""
    path = write(f"{folder}/stream", read(f"{TOP}/examples/standard/aircraft.bufr") * 3000)
    found = bufr.messages(path)
    assert next(found)["place"] == 0 and next(found)["place"] == 2763
    found.close()
    assert next(bufr.rows(path, ["012101"]))


def test_pandas_is_an_extra(folder):
    """Without it one line says which package is missing; all else works."""
    write(f"{folder}/pandas.py", "raise ImportError('no pandas')\n")
    script = "import bufr\nprint(len(list(bufr.rows(%r, ['012101']))))\ntry:\n    bufr.read(%r, ['012101'])\nexcept bufr.Missing as e:\n" \
        "    print(e)\n" % ((f"{TOP}/examples/bulletin.bufr",) * 2)
    status, out, error = run(sys.executable, "-c", script, PYTHONPATH=f"{folder}:{TOP}/python")
    assert (status, out, error) == (0, f"2\nbufr.read needs the package pandas, which {sys.executable} does not have (Debian: "
                                    "python3-pandas, for /usr/bin/python3)\n", "")


def test_names_of_the_package():
    assert {"read", "rows", "messages", "encode", "check", "add", "merge", "BufrError"} <= set(dir(bufr))
    with pytest.raises(AttributeError, match="module 'bufr' has no attribute 'nothing'"):
        bufr.nothing
    for name in bufr.__all__:
        assert getattr(bufr, name).__doc__


def test_all_files_of_a_call_are_one_program(files):
    """The rows of many files are those of each alone, in their order, also of a file that comes twice and of one without messages."""
    paths = [path for path, _, _ in files[:30]] + [files[0][0], f"{TOP}/README.md", f"{TOP}/examples/refused.bufr", files[1][0]]
    columns = ["file", "message", "place", "subset", "centre"]
    refusals = []
    got = list(bufr.rows(paths, columns, refusals=refusals))
    assert got == [row for path in paths for row in bufr.rows(path, columns)]
    assert refusals == [(f"{TOP}/README.md", 0, f"skipped {os.path.getsize(f'{TOP}/README.md')} octets: text"),
                        (f"{TOP}/examples/refused.bufr", 0, "M2 Edition 5")]
    assert list(bufr.rows([], columns)) == []


def test_names_like_options_and_refusals(folder):
    octets = read(f"{TOP}/examples/sequences.bufr") + read(f"{TOP}/examples/refused.bufr")
    names = ["-b", "refused 0 M2", "a b", "-"]
    with pytest.MonkeyPatch.context() as patch:
        patch.chdir(folder)
        for name in names:
            write(f"{folder}/{name}", octets)
        refusals = []
        assert list(bufr.rows(names, ["file", "012101"], refusals=refusals)) == [(name, 273.15) for name in names]
        assert refusals == [(name, 62, "M2 Edition 5") for name in names]
        for name in names:
            assert list(bufr.rows(name, ["file", "012101"], tables=46)) == [(name, 273.15)]
            assert len(bufr.check(name)) == 2 and len(list(bufr.messages(name))) == 1
