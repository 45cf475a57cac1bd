"""bufr.rows and bufr.read by bufr-select, beside what they say by listings."""
import datetime
import glob
import os
import random
import subprocess
import warnings

import numpy
import pandas
import pytest

import bufr
import makers
from bufr import few_tables, framing, moments, processes, progress, reading, selecting, versions
from bufr.tables import Tables
from conftest import TOP, message, read, write

SAMPLES = sorted(glob.glob(f"{TOP}/examples/*.bufr") + glob.glob(f"{TOP}/examples/standard/*.bufr"))
NAMED = {"where": "file", "pressure": "PRESSURE", "kelvin": "TEMPERATURE/AIR TEMPERATURE", "height": "HEIGHT", "site": "STATION OR SITE NAME"}
# Columns, each, and how the call is made.
CALLS = [
    (["file", "message", "place", "subset", "001001", "001002", "005001", "006001", "012101", "001015"], None, {"time": True}),
    (["centre", "sub_centre", "update", "category", "international", "local_category", "master_version", "local_version", "observed",
      "compressed", "year", "month", "day", "hour", "minute", "second"], None, {}),
    (["012101#1", "012101#2", "001011", "010004"], None, {}), (NAMED, "007004", {"time": True}), (NAMED, None, {}),
    (["012101", "011002"], "PRESSURE", {}), (["001015"], "020012", {"time": True}), (["012101", "063001"], None, {}),
    (["012101"], "063001", {}), (["012101"], None, {"strict": True}), (["012101", "005001"], None, {"tables": 46})]


@pytest.fixture
def program():
    path = selecting.selector()
    if path is None:
        pytest.skip("there is no bufr-select")
    return path


def said(call, *words, **how):
    """What a call gives, or the exception that it raises, with its warnings and where they are told."""
    with warnings.catch_warnings(record=True) as told:
        warnings.simplefilter("always")
        try:
            found = call(*words, **how)
        except bufr.BufrError as error:
            found = repr(error)
    return found, [(str(each.message), each.filename) for each in told]


def rows(files, columns, each, how):
    refusals = []
    found, told = said(lambda: list(bufr.rows(files, columns, each, refusals=refusals, **how)))
    return found, refusals, told


def alike(files, columns, each, how, monkeypatch):
    """Both ways give the same rows, DataFrames, refusals and warnings. Returns the rows."""
    one, frame = rows(files, columns, each, how), said(bufr.read, files, columns, each, quiet=True, **how)
    with monkeypatch.context() as patched:
        patched.setattr(selecting, "selector", lambda: None)
        assert rows(files, columns, each, how) == one
        other = said(bufr.read, files, columns, each, quiet=True, **how)
    assert other[1] == frame[1]
    if isinstance(frame[0], str):
        assert other[0] == frame[0]
    else:
        pandas.testing.assert_frame_equal(frame[0], other[0])
        assert frame[0].attrs == other[0].attrs
    return one[0]


@pytest.mark.parametrize("columns, each, how", CALLS)
def test_samples(program, columns, each, how, monkeypatch):
    chosen = []
    monkeypatch.setattr(reading, "plan_of", lambda *words: chosen.append(selecting.plan_of(*words)) or chosen[-1])
    alike(SAMPLES, columns, each, how, monkeypatch)
    # listings tell of names, since a message here has both elements of one, and that there is no field for each
    assert (chosen[0] is None) == (columns is NAMED or each in ("PRESSURE", "063001"))


@pytest.mark.parametrize("columns", [["001002", "012101", "message", "observed"], ["006001"]])
def test_both_readers(program, columns, monkeypatch):
    """pandas reads the tables whose points differ, and the DataFrame is the same."""
    read = lambda: bufr.read(SAMPLES, columns, time=len(columns) > 1, quiet=True)
    found, said, by_pandas = read(), [], framing.Framer.read
    monkeypatch.setattr(framing.Framer, "read", lambda framer, path: said.append(path) or by_pandas(framer, path))
    pandas.testing.assert_frame_equal(read(), found)
    assert not said
    monkeypatch.setattr(framing, "columns_of", lambda *words: None)
    pandas.testing.assert_frame_equal(read(), found)
    assert len(said) == 1


@pytest.mark.parametrize("path", SAMPLES, ids=os.path.basename)
def test_each_sample(program, path, monkeypatch):
    for columns, each, how in CALLS[:4]:
        alike([path], columns, each, how, monkeypatch)


@pytest.mark.parametrize("seed", range(12))
def test_random_messages(program, seed, folder, monkeypatch):
    """Random columns, `each` and calls on files of random messages of all versions, some with fields of local tables and of 205."""
    rng = random.Random(seed)
    files = [path for path, _ in makers.files_of(rng, folder, rng.randint(1, 4))]
    said = subprocess.run([os.environ["BUFR_LS"], "-c", "descriptors", *files], capture_output=True, text=True).stdout.split()
    found = sorted({word for word in said if word[0] == "0" or word.startswith("205")} | {"012101"})
    for _ in range(3):
        columns = [word + rng.choice(["", "", "#1", "#2"]) for word in rng.sample(found, min(len(found), rng.randint(1, 6)))]
        columns += rng.sample(["file", "message", "place", "subset", "centre", "observed", "second"], rng.randint(0, 3))
        how = {"time": rng.random() < 0.4, "strict": rng.random() < 0.2}
        alike(files, list(dict.fromkeys(columns)), rng.choice([None, rng.choice(found)]), how, monkeypatch)


def test_refused_messages_and_versions(program, folder, monkeypatch):
    """Each message under the tables of its version; those that are refused, cut or beyond the tables are told with their places."""
    stream = write(f"{folder}/stream", message(13) + b"noise" + message(60) + message(46, edition=5) + message(46, descriptor="3FFF") +
                   message(18, edition=3) + message(46)[:30])
    found = alike([stream, f"{TOP}/README.md", stream], ["file", "message", "012101"], None, {}, monkeypatch)
    assert found == [(stream, 1, 273.15), (stream, 5, 273.15)] * 2
    for how in ({"strict": True}, {"strict": True, "tables": 46}):
        alike([stream, stream], ["place", "012101"], None, how, monkeypatch)


def listing(template, *subsets, version=46):
    """A listing of one message: the lines of its subsets."""
    body = "".join("subset\n" + "".join(f"{line}\n" for line in each.split("; ")) for each in subsets)
    return f"message\nsection1 98 0 0 0 2 0 {version} 0\ntime 2024 1 15 12 0 0\nflags\ndescriptors {template}\n{body}end\n"


def encoded(folder, text):
    path = write(f"{folder}/listing", text)
    status, octets, error = makers.encoded(path)
    assert status == 0, error
    return write(f"{folder}/file", octets)


DAY = "004001 2024; 004002 1; 004003 15; 004004 12"


def test_a_minute_that_is_missing_and_one_that_is_not_there(program, folder, monkeypatch):
    """A minute that no field has is 0, one that is missing makes no time: by the template of each message."""
    day, minute = "004001 004002 004003 004004", "004005"
    path = encoded(folder, listing(day, DAY) + listing(f"{day} {minute}", f"{DAY}; 004005 missing", f"{DAY}; 004005 7") + listing(day, DAY))
    found = alike([path], ["message"], None, {"time": True}, monkeypatch)
    moment = datetime.datetime(2024, 1, 15, 12)
    assert found == [(moment, 1), (None, 2), (moment.replace(minute=7), 2), (moment, 3)]


def test_times_of_columns_are_those_of_rows():
    """Of random parts: missing ones, of columns that no message has, outside their ranges, days of leap years, and years that pandas
    does not know."""
    rng, nan = random.Random(7), float("nan")
    ranges = [(0, 10000), (-1, 14), (-1, 33), (-1, 25), (-1, 61), (-1, 61)]
    rows = [[nan if rng.random() < 0.05 else rng.randint(*each) for each in ranges] for _ in range(3000)]
    rows += [[year, month, day, 0, 0, 0] for year in (1900, 2000, 2023, 2024) for month in range(1, 13) for day in (28, 29, 30, 31)]
    rows += [[1677, 9, 21, 0, 12, second] for second in (43, 44)] + [[2262, 4, 11, 23, 47, second] for second in (16, 17)]
    rows += [[2024, 1, 15, 12.75, 1e14, 0], [1e14, 1, 1, 0, 0, 0], [-5, 1, 1, 0, 0, 0], [1, 1, 1, 0, 0, 0], [9999, 12, 31, 23, 59, 59]]
    for is_there in ((True, True), (True, False), (False, False)):
        for lacks in ((), (5,), (4, 5), (0,)):
            parts = [None if at in lacks else numpy.array([row[at] for row in rows], "float64") for at in range(6)]
            found = moments.moments_of(numpy, parts, is_there)
            cells = [[None if at in lacks or part != part else part for at, part in enumerate(row)] for row in rows]
            wanted = pandas.to_datetime(pandas.Series([moments.moment_of(row, is_there) for row in cells], dtype=object), errors="coerce")
            pandas.testing.assert_series_equal(pandas.Series(found), wanted)
    whole = [numpy.array([year, year]) for year in (2024, 2, 29, 23, 59, 58)]
    assert moments.moments_of(numpy, whole, (True, True)).tolist() == [1709251198 * 10 ** 9] * 2
    assert moments.moment_of([2024, 2, 29, 23, 59, 58], (True, True)) == datetime.datetime(2024, 2, 29, 23, 59, 58)


def test_a_minute_in_a_replication_is_left_to_listings(program, folder, monkeypatch):
    template = "004001 004002 004003 004004 101000 031001 004005"
    path = encoded(folder, listing(template, f"{DAY}; 031001 0", f"{DAY}; 031001 1; 004005 missing"))
    assert reading._planned([path], reading.columns_of(["message"], None), None, None, True) is None
    assert alike([path], ["subset"], None, {"time": True}, monkeypatch) == [(datetime.datetime(2024, 1, 15, 12), 1), (None, 2)]


def test_texts(program, folder, monkeypatch):
    """Commas, quotes, backslashes and octets that are no characters; spaces and NULs at the end are none of a text."""
    texts = [r'a,b\22\5c\0a\ff1', "        ", r"\00\00\00\00\00\00\00\00", r" x\00y    ", "0012    ", "1.50    "]
    fields = [f'205008 "{text}"' for text in texts] + ["205008 missing"]
    found = alike([encoded(folder, listing("205008", *fields))], ["205008"], None, {}, monkeypatch)
    assert found == [('a,b"\\\n\xff1',), (None,), (None,), (" x\0y",), ("0012",), ("1.50",), (None,)]


def test_numbers(program, folder, monkeypatch):
    """A column of whole numbers, of numbers with a point, of both, and of one that has more digits than a float."""
    template = "001125 012101 202129 012101 202000 201160 202138 012101 202000 201000"
    path = encoded(folder, listing(template, "001125 1; 012101 273.15; 012101 27.315; 012101 273.150000000001",
                                   "001125 2; 012101 missing; 012101 missing; 012101 missing"))
    found = alike([path], ["001125", "012101", "012101#2", "012101#3"], None, {}, monkeypatch)
    assert [tuple(map(str, row)) for row in found] == [("1", "273.15", "27.315", "273.150000000001"), ("2", "None", "None", "None")]


def test_names_of_two_elements(program, folder, monkeypatch):
    """012001 and 012101 have one name. A message that has both is left to listings, since the first of them counts."""
    name = "TEMPERATURE/AIR TEMPERATURE"
    either = encoded(folder, listing("012001", "012001 273.1") + listing("012101", "012101 273.15", "012101 missing"))
    assert alike([either], [name], None, {}, monkeypatch) == [(273.1,), (273.15,), (None,)]
    both = encoded(folder, listing("012001 012101", "012001 273.1; 012101 273.15", "012001 missing; 012101 1.00"))
    assert reading._planned([both], reading.columns_of([name], None), None, None, False) is None
    assert alike([both], [name], None, {}, monkeypatch) == [(273.1,), (None,)]


def test_what_templates_ask_for():
    """Which fields are texts, which are always there before `each`, and which may not be there."""
    tables = Tables(*versions.table_paths(46))
    made = lambda words, *each: selecting.template_of(tables, words.split(), frozenset(each))
    found = made("001015 004001 101000 031001 004005 102002 004006 012101 205003")
    assert (found.texts, found.numbers) == ({"001015", "205003"}, {"004001", "031001", "004005", "004006", "012101"})
    assert found.always == {"001015", "004001", "031001", "004006", "012101", "205003"} and found.maybe == {"004005"}
    assert made("004005 101000 031001 004005").maybe == set()
    assert made("004005 007004 004006", "007004").maybe == {"007004", "004006"}
    # a local element is a number, but where it has the width of its row
    assert made("206160 001015").texts == {"001015"} and made("206012 001015").numbers == {"001015"}
    assert made("012101").long == set() and made("201160 202138 012101 202000 201000").long == {"012101"}
    with pytest.raises(Exception, match="X1 UnknownElement 063255"):
        made("063255")


@pytest.mark.parametrize("script, error", [
    ("echo 'bufr-select: read failed input 1' >&2; exit 2", "read failed input 1"), ("kill -9 $$", "program was killed by signal 9")])
def test_a_program_that_fails_says_so(script, error, folder, monkeypatch):
    program = write(f"{folder}/program", f"#!/bin/sh\necho 012101,input\necho 1.00,1\n{script}\n")
    os.chmod(program, 0o755)
    monkeypatch.setenv("BUFR_SELECT", program)
    for call in (lambda: list(bufr.rows(SAMPLES[:1], ["012101"])), lambda: bufr.read(SAMPLES[:1], ["012101"])):
        with pytest.raises(bufr.BufrError, match=f"^{error}$"):
            call()


def test_without_the_program_and_of_pipes_listings_tell(folder, monkeypatch):
    with monkeypatch.context() as patched:
        patched.setenv("BUFR_SELECT", f"{folder}/named")
        assert selecting.selector() == f"{folder}/named"
        # bufr alone is named
        patched.delenv("BUFR_SELECT")
        assert selecting.selector() is None and len(list(bufr.rows(SAMPLES[:1], ["012101"]))) == 4
    monkeypatch.setattr(selecting, "selector", lambda: f"{folder}/no program")
    os.mkfifo(f"{folder}/pipe")
    feeder = subprocess.Popen(["cp", SAMPLES[0], f"{folder}/pipe"])
    assert len(list(bufr.rows(f"{folder}/pipe", ["012101"]))) == len(bufr.check(SAMPLES[0]))
    assert feeder.wait() == 0
    with pytest.raises(bufr.BufrError, match=f"^cannot run {folder}/no program: No such file or directory$"):
        list(bufr.rows(SAMPLES[:1], ["012101"]))


def counting(folder, monkeypatch, name):
    """Makes calls run a program by a script that counts its runs. Returns the file that has a line for each."""
    variable = name.upper().replace("-", "_")
    path = write(f"{folder}/{name}", f"#!/bin/sh\necho >>{folder}/{name}.runs\nexec {selecting.program(name)} \"$@\"\n")
    os.chmod(path, 0o755)
    monkeypatch.setenv(variable, path)
    return f"{folder}/{name}.runs"


def test_heads_are_listed_once_if_there_is_nothing_else(program, folder, monkeypatch):
    """Of messages with and without a field for the minute; what is between messages is looked for in a second run."""
    day = "004001 004002 004003 004004"
    path = encoded(folder, (listing(day, DAY) + listing(f"{day} 004005", f"{DAY}; 004005 7", f"{DAY}; 004005 missing")) * 3)
    runs, noise = counting(folder, monkeypatch, "bufr-ls"), write(f"{folder}/noise", read(path) + b"BUFR\0\0\x40\4 and no more")
    other = write(f"{folder}/other", read(path)[:int.from_bytes(read(path)[4:7], "big")])
    moment = pandas.Timestamp(2024, 1, 15, 12)
    wanted = {other: [(1, moment)]}
    wanted[path] = wanted[noise] = [*zip([1, 2, 2, 3, 4, 4, 5, 6, 6], [moment, moment.replace(minute=7), pandas.NaT] * 3)]
    for times, files in enumerate(([path], [path, path], [other, path], [path, noise]), 1):
        frame = bufr.read(files, ["message"], time=True)
        assert list(zip(frame["message"], frame["time"])) == [row for file in files for row in wanted[file]]
        assert len(read(runs)) == times + (noise in files)
    assert [each[1] for each in frame.attrs["refusals"]] == [os.path.getsize(path)]


def test_a_file_that_grows_while_it_is_read(program, folder, monkeypatch):
    """The messages that came meanwhile have their rows and times, also if they ask for other rows of the tables. Only an iterator, whose
    rows were handed out, can't read those of a version whose tables were not named."""
    day, start = "004001 004002 004003 004004", selecting.Selection.__init__
    path = encoded(folder, listing(day, DAY) + listing(f"{day} 004005", f"{DAY}; 004005 7"))
    octets, moments_here = read(path), [datetime.datetime(2024, 1, 15, 12, minute) for minute in (0, 7)]
    for more, wanted in ((octets * 2, moments_here * 3), (message(46), [*moments_here, None]), (message(13), [*moments_here, None])):
        for is_frame in (True, False):
            write(path, octets)

            def grown(*words):
                with open(path, "ab") as file:
                    file.write(more if os.path.getsize(path) == len(octets) else b"")
                return start(*words)
            monkeypatch.setattr(selecting.Selection, "__init__", grown)
            if is_frame:
                found = bufr.read(path, ["message"], time=True)["time"]
                assert [None if each is pandas.NaT else each for each in found] == wanted
            elif more == message(13):
                with pytest.raises(bufr.BufrError, match="^a file has changed while it was read$"):
                    list(bufr.rows(path, ["message"], time=True))
            else:
                assert [row[0] for row in bufr.rows(path, ["message"], time=True)] == wanted


def test_tables_of_few_rows():
    """The rows of elements and sequences that descriptors ask for, with those of sequences in sequences; others are passed over."""
    found = few_tables.rows_of(Tables(*versions.table_paths(46)), ["301011", "301001", "012101", "101000", "031001", "206008", "063001"])
    assert found == ([("001001", "Numeric", 0, 0, 7), ("001002", "Numeric", 0, 0, 10), ("004001", "a", 0, 0, 12), ("004002", "mon", 0, 0, 4),
                      ("004003", "d", 0, 0, 6), ("012101", "K", 2, 0, 16), ("031001", "Numeric", 0, 0, 8)],
                     [("301001", "001001"), ("301001", "001002"), ("301011", "004001"), ("301011", "004002"), ("301011", "004003")])


def test_a_long_read_says_how_far_it_is(program, folder, monkeypatch, capsys):
    """While the program runs, which is looked at again and again."""
    path = write(f"{folder}/program", f"#!/bin/sh\nsleep 0.5\nexec {program} \"$@\"\n")
    os.chmod(path, 0o755)
    monkeypatch.setenv("BUFR_SELECT", path)
    monkeypatch.setattr(progress, "FIRST", 0.0)
    monkeypatch.setattr(progress.os, "isatty", lambda file: True)
    monkeypatch.setattr(framing, "positions", lambda *_: iter([(0, 7)]))
    assert bufr.read(f"{TOP}/examples/sequences.bufr", ["012101"])["012101"].tolist() == [273.15]
    assert capsys.readouterr().err.startswith("\rbufr: 7 of 62 octets\x1b[K")
    process = processes.Process(["sleep", "900"], ())
    assert not process.has_ended(0.01)
    process.end()
    assert process.has_ended(0.01)


def test_rows_have_numbers_in_their_order():
    order = selecting.Order()
    for text in (b"a\n" * 3, b"b\na\n", b"b\n"):
        order.take(text)
    assert dict(order) == {b"a\n": 0, b"b\n": 1} and order.numbers.tolist() == [0, 0, 0, 1, 0, 1]


def test_templates_of_the_standard_are_made_once(monkeypatch):
    """For each `each`; there is an end to how many are kept. Those of other tables are made for each call."""
    made = []
    monkeypatch.setattr(selecting, "MADE", {})
    monkeypatch.setattr(selecting, "MOST_MADE", 2)
    monkeypatch.setattr(selecting, "template_of", lambda _, descriptors, each: made.append((*descriptors, *each)))

    def ask(word, paths=None, each=()):
        selecting.Templates([], paths, frozenset(each)).of(f"46,{word}\n".encode())
        return len(made), len(selecting.MADE)
    assert [ask("012101"), ask("012101"), ask("012101", None, ["007004"])] == [(1, 1), (1, 1), (2, 2)]
    assert [ask("012103"), ask("012101")] == [(3, 1), (4, 2)]
    named = versions.table_paths(46)
    assert [ask("012101", named), ask("012101", named)] == [(5, 2), (6, 2)]
    assert made == [("012101",), ("012101", "007004"), ("012103",), ("012101",), ("012101",), ("012101",)]
