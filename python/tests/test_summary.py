"""bufr-summary: what it counts, beside what `bufr check` and `bufr-ls` say of the same files."""
import collections
import glob
import gzip
import importlib.util
import json
import os
import random
import sys
import zipfile

import pytest

import bufr
import makers
from bufr import contents, given, lister, starting, subsets, summary
from bufr.errors import Fault
from bufr.processes import RUNNING
from bufr.programs import launcher
from conftest import TOP, command, inside, message, named, read, run, write

SAMPLES = sorted(glob.glob(f"{TOP}/examples/*.bufr") + glob.glob(f"{TOP}/examples/standard/*.bufr"))
HEADING = b"\x01\r\r\n123\r\r\nISMD01 EDZW 151200 RRA\r\r\n"
STATIONS = "001001 001002 001011 001125 001126 001127 001128 004001 004002 004003 004004 004005 004006 005001 006001 005002 006002"


def said(*words, **how):
    """The JSON that bufr-summary prints, with its status."""
    status, out, error = command("summary", "--json", *words, **how)
    assert error == "", error
    return json.loads(out), status


def of(found, group):
    """The rows of a group: what they have in common, messages, subsets, refused."""
    return [(each[group], each["messages"], each["subsets"], each["refused"]) for each in found[group]]


def test_a_stream_by_hand(folder):
    """35 octets with a heading come before each of the first two messages; of the five those of version 60, of edition 5 and of no element are refused."""
    octets = HEADING + message(46) + b"\r\r\n\x03" + b"\x01\r\r\n124\r\r\nISSD40 LFPW 151200\r\r\n" + message(13, edition=3) + \
        message(46, descriptor="3FFF") + message(60) + message(46, edition=5)
    stream = write(f"{folder}/stream", octets)
    found, status = said("--headings", stream)
    assert status == 1
    assert (found["messages"], found["subsets"], found["refused"], found["octets"], found["between"]) == (5, 4, 3, 310, 70)
    assert found["time"] == ["2024-01-15 12:00:00"] * 2 and found["data_read"] is True
    assert of(found, "centre") == [(98, 4, 4, 2), (None, 1, 0, 1)]
    assert of(found, "category") == [(0, 4, 4, 2), (None, 1, 0, 1)]
    assert of(found, "edition") == [(4, 3, 3, 2), (3, 1, 1, 0), (5, 1, 0, 1)]
    assert of(found, "version") == [(46, 2, 2, 1), (13, 1, 1, 0), (60, 1, 1, 1), (None, 1, 0, 1)]
    assert of(found, "descriptors") == [(["012101"], 3, 3, 1), (["063255"], 1, 1, 1), ([], 1, 0, 1)]
    assert found["reasons"] == [{"reason": "M2 Edition 5", "messages": 1}, {"reason": "X1 UnknownElement 063255", "messages": 1},
                                {"reason": "no table here reads version 60", "messages": 1}]
    assert [(each["file"], each["place"], each["reason"][:2]) for each in found["refusals"]] == [
        (stream, 163, "X1"), (stream, 212, "no"), (stream, 261, "M2")]
    assert found["reports"] == {"with_key": 0, "without_key": 2, "time": [None, None]}
    assert found["stations"] == {"WMO": 0, "WIGOS": 0, "mobile": 0}
    assert found["headings"] == [{"heading": None, "messages": 3}, {"heading": "ISMD01 EDZW", "messages": 1},
                                 {"heading": "ISSD40 LFPW", "messages": 1}]
    assert found["files"] == [{"file": stream, "octets": 310, "messages": 5, "subsets": 4, "refused": 3, "between": 70, "skipped": []}]


def test_headings_of_the_samples():
    """The heading of bulletin.bufr ends where its message begins, and its second message has none (examples/README.md)."""
    for name, wanted in (("bulletin", [(None, 1), ("ISMD01 EDZW", 1)]), ("standard/bulletins", [("ISMD01 EDZW", 1), ("ISSD01 EDZW", 1)])):
        found, _ = said("--headings", f"{TOP}/examples/{name}.bufr")
        assert [(each["heading"], each["messages"]) for each in found["headings"]] == wanted


def test_the_last_heading_before_a_message_counts(folder):
    """A bulletin of text comes before that of the message."""
    octets = b"\r\r\nSMDL01 EDZW 151200\r\r\nAAXX 15121=\r\r\n\x03" + HEADING + message(46)
    found, _ = said("--headings", write(f"{folder}/file", octets))
    assert found["headings"] == [{"heading": "ISMD01 EDZW", "messages": 1}]


def test_local_tables_are_a_version_of_their_own(folder):
    write(f"{folder}/listing", listing(DAY) + listing(DAY).replace(" 46 0\n", " 46 1\n"))
    found, _ = said(write(f"{folder}/file", makers.encoded(f"{folder}/listing")[1]))
    assert of(found, "version") == [(46, 1, 1, 0), ("46 local 1", 1, 1, 0)]


def test_its_text(folder):
    path = write(f"{folder}/file", message(46) * 2 + b"x" + message(46, edition=5))
    assert command("summary", path) == (1, f"""files 1, octets 148, of them 1 between messages
messages 3, refused 1, subsets 2
time of the messages: 2024-01-15 12:00:00
reports 2: with a key 0, without 2
time of the reports: none
stations: WMO 0, WIGOS 0, mobile 0

  messages   subsets   refused  centre
         2         2         0  98
         1         0         1  not read

  messages   subsets   refused  category
         2         2         0  0 surface data, land
         1         0         1  not read

  messages   subsets   refused  edition
         2         2         0  4
         1         0         1  5

  messages   subsets   refused  version
         2         2         0  46
         1         0         1  not read

  messages   subsets   refused  descriptors
         2         2         0  012101
         1         0         1  not read

  messages  refusal
         1  M2 Edition 5, first at 99 of {path}
""", "")


def test_its_table_by_file(folder):
    """Of several files, in their order, and also one without a message."""
    first, second = write(f"{folder}/b", message(46) * 2 + message(46, edition=5)), write(f"{folder}/a", message(13))
    text = write(f"{folder}/c", "no message")
    out = command("summary", first, second, text)[1].split("\n\n")
    assert out[1] == f"""  messages   subsets   refused  file
         3         2         1  {first}
         1         1         0  {second}
         0         0         0  {text}"""
    assert out[2].startswith("  messages   subsets   refused  centre\n")
    assert "  file\n" not in command("summary", first)[1]


def listed(path):
    """What bufr-ls and `bufr check` say of a file: the rows of one, and the lines and the last counts of the other."""
    rows = run(os.environ["BUFR_LS"], path)[1].splitlines()
    names, rows = rows[0].split(","), [line.split(",") for line in rows[1:]]
    lines = run("sh", launcher(), "check", path)[1].splitlines()
    return [dict(zip(names, row)) for row in rows], lines[:-1], [int(word) for word in lines[-1].split()[1::2]]


def agree(paths):
    """What is counted is what bufr-ls and `bufr check` say of the files."""
    found, _ = said(*paths)
    rows = []
    assert [each["file"] for each in found["files"]] == paths
    for each in found["files"]:
        here, lines, (frames, refused, skipped) = listed(each["file"])
        rows += here
        assert (each["messages"], each["refused"], each["between"]) == (frames, refused, skipped)
        assert each["subsets"] == sum(int(row["subsets"] or 0) for row in here)
        reasons = [(each["file"], int(line.split()[0]), line.split(" ", 3)[3]) for line in lines if " refused " in line]
        told = [(one["file"], one["place"], one["reason"]) for one in found["refusals"] if one["file"] == each["file"]]
        assert [one for one in told if not one[2].startswith("no table")] == reasons
        each["accepted"] = sum(int(line.split()[3]) for line in lines if " ok " in line)
    for group, word in (("centre", "centre"), ("category", "category"), ("edition", "edition"), ("version", "master_version")):
        wanted = collections.Counter(row[word] for row in rows)
        counted = collections.Counter()
        for each in found[group]:
            counted[str(each[group]).split(" ")[0].replace("None", "")] += each["messages"]
        assert counted == wanted, group
    times = [tuple(int(row[word]) for word in ("year", "month", "day", "hour", "minute", "second")) for row in rows if row["year"]]
    assert found["time"] == ["{:04}-{:02}-{:02} {:02}:{:02}:{:02}".format(*time) for time in (min(times), max(times))]
    assert sum(found["reports"][word] for word in ("with_key", "without_key")) == sum(each["accepted"] for each in found["files"])
    assert sum(each["messages"] for each in found["reasons"]) == len(found["refusals"]) == found["refused"]
    return found


def test_the_samples_agree():
    found = agree(SAMPLES)
    assert (found["messages"], found["refused"], found["subsets"]) == (20, 2, 154)
    assert found["stations"] == {"WMO": 5, "WIGOS": 0, "mobile": 1}


@pytest.mark.parametrize("seed", range(4))
def test_random_messages_of_all_versions_agree(seed, folder):
    paths = [path for path, _ in makers.files_of(random.Random(seed), folder, 12)]
    broken = write(f"{folder}/broken.bufr", b"".join(read(path)[:-4] + b"7777" for path in paths[:3]) + message(200))
    agree([*paths, broken])


def test_archives_agree(folder):
    """An archive has each report once, and all stations of its streams."""
    made = bufr.add(f"{folder}/{{}}.bufr", [path for path in SAMPLES if "refused" not in path and "short" not in path])
    found = agree(sorted(each.path for each in made))
    counted = sum(each.reports for each in made)
    assert counted == found["messages"] == found["subsets"] == sum(found["reports"][word] for word in ("with_key", "without_key"))
    streams, _ = said(*SAMPLES)
    assert found["stations"] == streams["stations"]
    again, _ = said(*[each.path for each in made] * 2)
    assert again["reports"]["with_key"] == 2 * found["reports"]["with_key"] and again["stations"] == found["stations"]


def listing(*fields):
    """A listing of one message with a subset for each text of fields: those of STATIONS, and missing where it has none."""
    given = [dict(line.split(" ", 1) for line in each.split(", ")) for each in fields]
    subsets = "".join("subset\n" + "".join(f"{word} {each.get(word, 'missing')}\n" for word in STATIONS.split()) for each in given)
    return f"message\nsection1 98 0 0 0 2 0 46 0\ntime 2024 1 15 12 0 0\nflags\ndescriptors {STATIONS}\n{subsets}end\n"


DAY = "004001 2024, 004002 2, 004003 29, 004004 6"


def test_stations_and_keys_by_hand(folder):
    """The rules of docs/FORMATS.md for a station and a moment, each at its sides."""
    wigos = '001125 0, 001126 20000, 001127 5, 001128 "AB01            "'
    fields = [f"001001 10, 001002 4, 001011 \"SHIP     \", {wigos}, {DAY}", f"001001 10, 001011 \"SHIP     \", {wigos}, {DAY}",
              f"001002 4, 001011 \"SHIP     \", {DAY}", f"001011 \"\\00        \", {DAY}", f"001001 10, 001002 4, {DAY}, 004005 60",
              f"001001 10, 001002 4, {DAY}, 004005 59, 004006 5", "001001 10, 001002 4, 004001 2023, 004002 2, 004003 29, 004004 6",
              f"001001 0, 001002 5, {DAY.replace('004004 6', '004004 24')}",
              wigos.replace("AB01", "    ") + f", 001011 \"SHIP     \", {DAY.replace('004004 6', '004004 5')}"]
    write(f"{folder}/listing", listing(*fields))
    status, octets, error = makers.encoded(f"{folder}/listing")
    assert status == 0, error
    path = write(f"{folder}/file", octets)
    found, _ = said(path)
    assert found["reports"] == {"with_key": 5, "without_key": 4, "time": ["2024-02-29 05:00:00", "2024-02-29 06:59:05"]}
    assert found["stations"] == {"WMO": 2, "WIGOS": 1, "mobile": 1}
    with contents.Files([path]) as files:
        _, counted = summary.read(files)
    assert {station: (each.reports, len(each.moments)) for station, each in counted.stations.items()} == {
        ("WMO", "10004"): (4, 2), ("WMO", "00005"): (1, 0), ("WIGOS", "0-20000-5-AB01"): (1, 1), ("mobile", "SHIP"): (2, 2)}
    # the program's own keys: an archive has as many, and each of those without one
    assert bufr.add(f"{folder}/archive", [path])[0].reports == 5 + 4


@pytest.mark.parametrize("fields, position", [
    ("005001 -90.00000, 006001 180.00000", (-90.0, 180.0)), ("005002 1.50, 006002 -2.25", (1.5, -2.25)),
    ("005001 1.00000, 006001 2.00000, 005002 3.00, 006002 4.00", (1.0, 2.0)), ("005001 1.00000, 006002 4.00", None),
    ("005001 90.00001, 006001 0.00000", None), ("005001 0.00000, 006001 -180.00001", None), ("005001 missing, 006001 2.00000", None)])
def test_positions(fields, position):
    text = "".join(f"{line}\n" for line in fields.split(", ")).encode()
    assert subsets.report_of(text, None).position == position


def test_the_first_field_of_a_descriptor_counts():
    text = b'001001 10\n001002 384\n001001 11\n001002 999\n012101 missing\n012101 273.15\n'
    found = [subsets.report_of(text, subsets.Element((b"012101",), number)).value for number in (1, 2, 3)]
    assert subsets.report_of(text, None).station == ("WMO", "10384") and found == [None, 273.15, None]


def test_without_data_a_message_is_refused_for_its_template(folder):
    """What is refused for sections and descriptors is the same; what is refused for data, and reports, are not told."""
    short = read(f"{TOP}/examples/short_data.bufr")
    path = write(f"{folder}/file", message(46, descriptor="3FFF") * 3 + short + message(13, descriptor="C001") + message(46) + message(60) +
                 message(46, edition=5))
    with contents.Files([path, f"{TOP}/README.md"]) as files:
        headed, none = summary.read(files, with_data=False)
        data, counted = summary.read(files, with_data=True)
    assert none is None and counted is not None and not headed.refusals
    assert headed.reasons == {"X1 UnknownElement 063255": 3, "X2 UnknownSequence 300001": 1, "no table here reads version 60": 1,
                             "M2 Edition 5": 1}
    assert data.reasons == {**headed.reasons, "V2 DataEnds 1 8": 1}
    assert (headed.all.messages, headed.all.subsets, headed.between) == (data.all.messages, data.all.subsets, data.between)
    assert headed.losses == data.losses and headed.losses[1][0].why == "text"


def at(hour, minute, octets):
    """A message of edition 4 at another time."""
    return octets[:27] + bytes([hour, minute]) + octets[29:]


def test_heads_and_times_are_counted_together_or_apart(folder, monkeypatch):
    """In more than one lump: of a file whose messages are at many times; and if one has grown before its times are listed."""
    chance = random.Random(3)
    kinds = [message(46)] * 30 + [message(13, subsets=7, kelvin="6AB3" * 7), message(46, edition=3), message(60), message(46, edition=5),
                                  message(46, descriptor="3FFF"), message(46)[:-5] + b"x" + message(46)[-4:]]
    octets = [b"".join(each if each[7] == 3 else at(chance.randrange(1, 24), chance.randrange(60), each)
                       for each in (chance.choice(kinds) for _ in range(2000))) for _ in range(2)]
    # the first and the last time are late in the second file
    octets[1] += at(0, 7, message(46)) + at(23, 59, message(46))[:-4] + b"7777" + at(0, 3, message(46, edition=5))
    # and a fault of a template comes there alone
    octets[1] += message(46, descriptor="3FFE")
    paths = [write(f"{folder}/{number}", each) for number, each in enumerate(octets)]
    grown = write(f"{folder}/grown", octets[1] + at(0, 1, message(46)))

    def counted(processors, second=None):
        """With so many processors; the second run of bufr-ls may be of other files."""
        def start_all(paths):
            listers = starting.start_all(paths)
            started.append(len(listers))
            if second:
                listers.pop().end()
                unused, other = starting.start_all(second)
                unused.end()
                listers.append(other)
            return listers
        with monkeypatch.context() as patched, contents.Files(paths) as files:
            patched.setattr(os, "sched_getaffinity", lambda _: set(range(processors)))
            patched.setattr(summary, "start_all", start_all)
            return summary.json_of(summary.read(files, with_data=False)[0], None)
    started = []
    found = counted(1)
    assert counted(3) == found
    assert counted(3, [paths[0], grown]) == found
    assert started == [1, 2, 2]
    assert found["time"] == ["2024-01-15 00:07:00", "2024-01-15 23:59:00"] and found["messages"] == 4004


def test_bufr_ls_runs_while_the_rest_is_loaded(folder, monkeypatch):
    """On the files of a call that are read by their heads unasked. Nothing else is started for other words, and no pipe is read."""
    path, short = write(f"{folder}/file", message(46) * 81633), write(f"{folder}/short", message(46))
    loaded = []

    class Noted(given.Files):
        def __init__(self, *words):
            loaded.append([each.words[-1] for each in RUNNING])
            super().__init__(*words)
            if len(loaded) > 1:
                raise Fault("none")
    monkeypatch.setattr(given, "Files", Noted)
    monkeypatch.setattr(os, "sched_getaffinity", lambda _: {0, 1, 2})
    assert inside("summary", short, path)[0] == 0 and loaded == [[path]]
    # they end with the call
    assert inside("summary", path) == (2, "", "bufr-summary: none\n") and not RUNNING
    assert inside("summary", short)[0] == 2 and inside("summary", "--quiet", path)[0] == 2 and loaded[2:] == [[], []]
    os.mkfifo(f"{folder}/pipe")
    for words in ([f"{folder}/pipe", path], [folder, path], [f"{folder}/none", path], [f"{path}\0"], ["-", path], []):
        assert starting.start_early(words, 4_000_000) == []
    # an option is one, though a file is called so
    monkeypatch.chdir(folder)
    os.link(path, "--json")
    assert starting.start_early(["--json"], 4_000_000) == []


def test_times_are_counted_in_lumps():
    """Of rows that are alike and of others: the times of messages that have subsets, and how many rows there are."""
    moments = lister.Moments()
    for text in (b"2024,1,15,12,0,0,1\n" * 3, b"2024,1,15,12,0,0,1\n", b"2024,1,15,12,0,0,1\n,,,,,,\n2024,1,15,12,7,0,20\n", b",,,,,,\n" * 2):
        moments.take(text)
    assert moments.number == 9 and moments.known() == {b"2024,1,15,12,0,0", b"2024,1,15,12,7,0"}


def test_the_first_and_the_last_time():
    """Numbers are compared, and not their digits."""
    counts = lister.Counts({}, False)
    assert counts.span() == []
    for moments, first, last in (([b"2024,2,15,9,5,0"], 0, 0), ([b"2024,2,15,9,50,0", b"2024,2,15,9,6,0", b"2024,2,15,10,1,0"], 1, 2),
                                 ([b"2024,12,1,0,0,0", b"2024,2,3,4,5,60", b"2024,2,3,4,5,7", b"2024,12,1,0,10,0", b"2024,12,1,0,9,0"], 2, 3)):
        counts.moments = set(moments)
        assert counts.span() == [tuple(map(int, moments[at].split(b","))) for at in (first, last)]


def test_rows_are_counted_without_what_python_has_for_itself(monkeypatch):
    monkeypatch.setitem(sys.modules, "_collections", None)
    spec = importlib.util.spec_from_file_location("bufr.lister_elsewhere", lister.__file__)
    module = importlib.util.module_from_spec(spec)
    spec.loader.exec_module(module)
    found = {b"a": 1}
    module.count_rows(found, [b"b", b"a", b"b"])
    assert found == {b"a": 2, b"b": 2} and module.count_rows.__module__ == "bufr.lister_elsewhere"


@pytest.mark.parametrize("size", [1, 6, 7, 64, 999])
def test_pieces_of_any_size_are_read_alike(size, monkeypatch):
    def counted():
        with contents.Files(SAMPLES) as files:
            found, reports = summary.read(files)
        return summary.json_of(found, reports), reports.hours, sorted(reports.counts())
    whole = counted()
    monkeypatch.setattr(subsets, "PIECE", size)
    assert counted() == whole and whole[0]["reports"]["with_key"] == 21


def test_a_long_stream_is_told_to_be_read_by_its_heads(folder):
    """Beyond 4,000,000 octets: 81,633 messages of 49 octets are 4,000,017."""
    path = write(f"{folder}/file", message(46) * 81633)
    status, out, error = command("summary", path)
    assert (status, error) == (0, "") and "data: not read, since --data is not given for more than 4,000,000 octets\n" in out
    assert "reports 81,633: with a key 0, without 81,633\n" in command("summary", "--data", path)[1]
    assert "reports 81,632: " in command("summary", write(path, message(46) * 81632))[1]


def test_files_without_a_message(folder):
    """A packed file is told, and text; an empty file is none of these."""
    synop = read(f"{TOP}/examples/standard/synop.bufr")
    packed = write(f"{folder}/file.gz", gzip.compress(synop))
    with zipfile.ZipFile(f"{folder}/file.zip", "w", zipfile.ZIP_DEFLATED) as file:
        file.writestr("synop.bufr", synop)
    text, empty, cut = write(f"{folder}/text", "no weather\n"), write(f"{folder}/empty", b""), write(f"{folder}/cut", synop[:300])
    for path, why, status in ((packed, "packed by gzip; unpack it", 1), (f"{folder}/file.zip", "packed by zip; unpack it", 1), (text, "text", 1),
                              (cut, "a message that is cut or broken", 1), (empty, None, 0)):
        found, ended = said(path)
        assert ended == status and found["messages"] == 0
        assert [(each["place"], each["octets"], each["why"]) for each in found["files"][0]["skipped"]] == (
            [(0, os.path.getsize(path), why)] if why else [])
        assert (f"{path}: empty\n" if why is None else f"octets at 0: {why}") in command("summary", path)[1]
    assert "packed by gzip; unpack it\n" in command("summary", packed)[1]
    for words in ([], ["-"]):
        found, ended = said(*words, given=synop + synop[:300])
        assert (found["files"][0]["file"], found["messages"], found["between"], ended) == ("-", 1, 300, 1)


def test_names_like_lines_of_listings(folder):
    """A name that ends as a line of a listing, begins as an option, or has a line's end."""
    names = ["a subset", "the end", "-x", "refused 1 by", "two\nlines", "pl\xe4in", "message"]
    for number, name in enumerate(names, 1):
        write(f"{folder}/{name}", message(46) * number + message(46, edition=5))
    found, status = said("--", *names, folder=folder)
    assert status == 1 and [(each["file"], each["messages"], each["refused"]) for each in found["files"]] == [
        (name, number + 1, 1) for number, name in enumerate(names, 1)]
    assert [(each["file"], each["place"]) for each in found["refusals"]] == [(name, 49 * number) for number, name in enumerate(names, 1)]
    assert found["reports"]["without_key"] == 28


def test_names_that_are_not_utf_8(folder):
    """Programs refuse them; each command gives them another one. The name is printed with its own octets."""
    path = os.fsdecode(os.fsencode(folder) + b"/pl\xe4in")
    with open(path, "wb") as file:
        file.write(message(46) * 3 + message(46, edition=5))
    plain = write(f"{folder}/file", message(46))
    found, status = said(plain, path)
    assert status == 1 and [(each["file"], each["messages"], each["refused"]) for each in found["files"]] == [(plain, 1, 0), (path, 4, 1)]
    status, out, error = command("summary", path, plain)
    assert (status, error) == (1, "") and f"         4         3         1  {folder}/pl\xe4in\n" in out
    # also of so many octets that bufr-ls starts early
    with open(path, "wb") as file:
        file.write(message(46) * 100000)
    status, out, error = command("summary", path)
    assert (status, error) == (0, "") and "\nmessages 100,000, refused 0, subsets 100,000\n" in out


@pytest.mark.parametrize("name", ["annotate", "to-json", "geojson"])
def test_one_file_whose_name_is_not_utf_8(folder, name):
    path = os.fsdecode(os.fsencode(folder) + b"/pl\xe4in")
    octets = read(f"{TOP}/examples/bulletin.bufr") + message(46, edition=5)
    with open(path, "wb") as file:
        file.write(octets)
    status, out, error = command(name, path)
    assert (status, error) == (1, f"bufr-{name}: {folder}/pl\\udce4in: refused 146 M2 Edition 5\n")
    plain = write(f"{folder}/file", octets)
    assert out.replace(json.dumps(path)[1:-1], plain) == command(name, plain)[1]


def test_tables_that_are_named(folder):
    path = write(f"{folder}/file", message(60) + message(13, edition=5))
    assert said(path)[0]["refused"] == 2
    for words in (["--tables", "46"], named(46)):
        found, _ = said(*words, path, path)
        assert (found["messages"], found["refused"], found["reports"]["without_key"]) == (4, 2, 2)
        assert [each["place"] for each in found["refusals"]] == [49, 49]


def test_folders_beside_files_are_passed_over(folder):
    os.mkdir(f"{folder}/sub")
    write(f"{folder}/file", message(46))
    status, out, error = command("summary", f"{folder}/file", f"{folder}/sub")
    assert (status, error) == (0, f"bufr-summary: {folder}/sub is a folder, and passed over\n") and out.startswith("files 1, octets 49, ")


def test_faults(folder):
    assert command("summary", folder) == (2, "", f"bufr-summary: {folder} is a folder: name its files, as {folder}/*\n")
    assert command("summary", f"{folder}/none") == (2, "", f"bufr-summary: cannot open {folder}/none: No such file or directory\n")
    assert command("summary", "--tables", "99", f"{TOP}/README.md") == (2, "", "bufr-summary: no table here reads version 99\n")
    status, out, error = command("summary", f"{TOP}/examples/bulletin.bufr", BUFR=f"{folder}/none")
    assert (status, out) == (2, "") and error.startswith("bufr-summary: ") and error.count("\n") == 1


def test_many_kinds_are_cut_in_text_alone(folder):
    path = write(f"{folder}/file", b"".join(message(version) for version in range(30)))
    _, out, _ = command("summary", path)
    assert out.endswith("""
  messages   subsets   refused  version
""" + "".join(f"         1         1         0  {version}\n" for version in range(20)) + """        ..  10 more, which --json has

  messages   subsets   refused  descriptors
        30        30         0  012101
""")
    assert len(said(path)[0]["version"]) == 30
