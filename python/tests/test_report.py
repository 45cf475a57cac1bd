"""bufr-report: its page by html.parser, and its numbers beside those of bufr-summary."""
import base64
import glob
import gzip
import html.parser
import json
import os
import re
import shutil
import subprocess

import pytest

from bufr import contents, report, summary
from conftest import TOP, command, message, read, write
from test_summary import listing
import makers

SAMPLES = sorted(glob.glob(f"{TOP}/examples/*.bufr") + glob.glob(f"{TOP}/examples/standard/*.bufr"))
LEAVES = {"meta", "img"}


class Read(html.parser.HTMLParser):
    """The tables of a page by their names, its pictures, its texts, and all that its tags name."""

    def __init__(self, octets):
        super().__init__()
        self.open, self.tags, self.tables, self.pictures, self.named, self.texts = [], set(), {}, [], [], []
        self.feed(octets.decode("utf-8"))
        self.close()
        assert self.open == []

    def handle_starttag(self, tag, attributes):
        self.tags.add(tag)
        found = dict(attributes)
        self.named += [(tag, name, value) for name, value in attributes if name in ("src", "href", "srcset", "data", "action", "poster") or
                       name.startswith("on")]
        if tag == "img":
            self.pictures.append(found["src"])
        if tag == "table":
            self.rows = self.tables[found["id"]] = []
        elif tag == "tr":
            self.rows.append([])
        elif tag in ("td", "th"):
            self.rows[-1].append("")
        if tag not in LEAVES:
            self.open.append(tag)

    def handle_endtag(self, tag):
        assert self.open.pop() == tag

    def handle_data(self, data):
        self.texts.append(data)
        if {"td", "th"} & set(self.open):
            self.rows[-1][-1] += data


def number(word):
    return int(word.replace(",", ""))


def of(files, listed=None):
    """The page of files without a map."""
    with contents.Files(files) as given:
        found, reports = summary.read(given, with_data=True)
        return Read(report.page_of(found, reports, listed, with_map=False))


def test_the_page_has_the_numbers_of_the_summary(folder):
    """All of its tables; one picture, which is inside; no script, and nothing from elsewhere."""
    packed, empty = write(f"{folder}/synop.gz", gzip.compress(read(SAMPLES[-2]))), write(f"{folder}/empty", b"")
    files, path = [*SAMPLES, f"{TOP}/README.md", packed, empty], f"{folder}/report.html"
    status, out, error = command("report", *files, "-o", path)
    assert (status, error) == (1, "") and out == \
        f"{path}: 153 reports, 6 stations and 132 reports without a station, 2024-01-15 10:45 to 2024-01-15 12:00, 2 of 20 messages refused\n"
    page, found = Read(read(path)), json.loads(command("summary", "--json", *files)[1])
    counted = {name: number(count) for name, count in page.tables["overview"][1:]}
    assert counted == {"files": 18, "octets": found["octets"], "octets between messages": found["between"], "messages": 20,
                       "messages refused": 2, "subsets": 154, "reports": 153, "reports with a key": found["reports"]["with_key"],
                       "reports without a key": found["reports"]["without_key"], "WMO stations": 5, "WIGOS stations": 0, "mobile stations": 1}
    assert (found["messages"], found["refused"], found["subsets"]) == (20, 2, 154)
    for group in contents.GROUPS:
        rows = [(word.split(" ")[0] if group == "category" else word, *map(number, counts)) for word, *counts in page.tables[group][1:]]
        plain = [(" ".join(each[group]) if group == "descriptors" else str(each[group])) for each in found[group]]
        assert rows == [(word if word not in ("None", "") else "not" if group == "category" else "not read", each["messages"], each["subsets"],
                         each["refused"]) for word, each in zip(plain, found[group])], group
    assert [(name, *map(number, counts)) for name, *counts, _ in page.tables["files"][1:]] == [
        tuple(each[word] for word in ("file", "octets", "messages", "subsets", "refused", "between")) for each in found["files"]]
    assert [row[-1] for row in page.tables["files"][-3:]] == [f"{os.path.getsize(files[-3]):,} octets at 0: text",
                                                             f"{os.path.getsize(packed):,} octets at 0: packed by gzip; unpack it", "empty"]
    assert page.tables["losses"] == [["lost", "octets", "file", "place, in octets from 0"],
                                     ["text", f"{os.path.getsize(files[-3]):,}", files[-3], "0"],
                                     ["packed by gzip; unpack it", f"{os.path.getsize(packed):,}", packed, "0"]]
    assert page.tables["refusals"] == [
        ["refusal", "means", "messages", "places, in octets from 0"],
        ["M2 Edition 5", "the edition is neither 3 nor 4", "1", f"{TOP}/examples/refused.bufr: 0"],
        ["V2 DataEnds 1 8", "there are fewer data than the template asks for", "1", f"{TOP}/examples/short_data.bufr: 0"]]
    assert page.tables["hours"][1:] == [["2024-01-15 10", "1", ""], ["2024-01-15 11", "128", ""], ["2024-01-15 12", "20", ""]]
    assert "Reports without a time: 4" in page.texts
    assert len(page.pictures) == 1 and page.pictures[0].startswith("data:image/png;base64,")
    assert base64.b64decode(page.pictures[0].partition(",")[2]).startswith(b"\x89PNG\r\n\x1a\n")
    is_alone(page, read(path))


def is_alone(page, octets):
    """Nothing of a page is a script or from elsewhere."""
    assert page.named == [("img", "src", each) for each in page.pictures] and all(each.startswith("data:") for each in page.pictures)
    assert not page.tags & {"script", "link", "iframe", "object", "embed", "base", "form", "video", "audio"}
    assert not re.search(rb"://|url\(|@import", re.sub(rb"base64,[^\"]*", b"", octets))


STATIONS = """\ufeffstation,name,expected
10001,complete,10
10002,of eighty,10
10003,below eighty,10
10004,of thirty,10
10005,below thirty,10
10006,more,10
10007,none came,10
0-20000-0-10008,by its WIGOS identifier,
0-20000-5-AB01,another,0
SHIP,,1
,,
"""


def test_stations_are_counted_as_wdqms_does(folder):
    """Each side of each threshold. A report that comes twice counts once, and one without a time not at all."""
    moments = [f"004001 2024, 004002 1, 004003 15, 004004 {hour}" for hour in range(12)]
    fields = [f"001001 10, 001002 {number}, {moment}" for number, count in ((1, 10), (2, 8), (3, 7), (4, 3), (5, 2), (6, 11), (8, 1), (9, 1))
              for moment in moments[:count]]
    fields += [fields[0], "001001 10, 001002 7", f'001125 0, 001126 20000, 001127 5, 001128 "AB01            ", {moments[0]}',
               f'001011 "SHIP     ", {moments[0]}']
    write(f"{folder}/listing", listing(*fields))
    status, octets, error = makers.encoded(f"{folder}/listing")
    assert status == 0, error
    path, table = write(f"{folder}/file", octets), f"{folder}/stations.csv"
    with open(table, "w", encoding="utf-8") as file:
        file.write(STATIONS)
    page = of([path], report.stations_of(table))
    assert page.tables["classes"][1:] == [
        ["more than 100 percent", "1"], ["normal (80 percent or more)", "3"], ["availability issues (30 percent or more)", "2"],
        ["availability issues (below 30 percent)", "1"], ["received", "1"], ["none expected", "1"], ["not received", "1"],
        ["in the list", "10"], ["reported, and not in the list", "1"]]
    assert page.tables["missing"][1:] == [["10007", "none came", "10"]]
    assert page.tables["beside"] == [["station", "received"], ["10009", "1"]]
    assert page.tables["fewer"][1:] == [["10005", "below thirty", "10", "2"], ["10004", "of thirty", "10", "3"],
                                       ["10003", "below eighty", "10", "7"]]
    with contents.Files([path]) as given:
        _, reports = summary.read(given)
    listed = report.stations_of(table)
    report.compared(listed, reports)
    assert {each.station: each.kind()[:12] for each in listed.values()} == {
        "10001": "normal (80 p", "10002": "normal (80 p", "10003": "availability", "10004": "availability", "10005": "availability",
        "10006": "more than 10", "10007": "not received", "0-20000-0-10008": "received", "0-20000-5-AB01": "none expecte",
        "SHIP": "normal (80 p"}


def test_what_is_empty_is_left_out(folder):
    """A table without rows with its heading, and a column without cells."""
    path = f"{folder}/stations.csv"
    write(path, "station,name,expected\n10384,,\n10001,,\n")
    page = of([f"{TOP}/examples/bulletin.bufr"], report.stations_of(path))
    assert page.tables["files"] == [["file", "octets", "messages", "subsets", "refused", "between"],
                                    [f"{TOP}/examples/bulletin.bufr", "146", "2", "2", "0", "22"]]
    assert page.tables["missing"] == [["station"], ["10001"]]
    assert not {"fewer", "beside"} & set(page.tables)
    headings = {"Stations that are missing", "Stations with availability issues", "Stations that reported and are not in the list"}
    assert headings & set(page.texts) == {"Stations that are missing"}
    page = of([write(f"{folder}/empty", b"")])
    assert set(page.tables) == {"overview", "files"} and page.tables["files"][1][-1] == "empty"
    assert not any("Messages by" in text for text in page.texts)


def test_what_refusals_mean():
    """The sentence of each code in the manual's table."""
    from bufr import refusals
    found = {}
    for codes, means in re.findall(r"^\| (`[MXV]\d.*?) \| (.*?) \|", read(f"{TOP}/docs/MANUAL.md").decode(), re.M):
        numbers = re.findall(r"`([MXV])(\d+)", codes)
        ends = [int(number) for _, number in numbers]
        every = range(ends[0], ends[-1] + 1) if " to " in codes else ends
        found.update((f"{numbers[0][0]}{number}", means.replace("`", "")) for number in every)
    assert refusals.MEANS == found and len(found) == 24
    assert refusals.meaning("X5 BadFactor 031011") == "the descriptors are malformed, or a factor has no usable row"
    newer = re.search(r"^\| `no table here reads version N` \| (.*?) \|", read(f"{TOP}/docs/MANUAL.md").decode(), re.M)[1]
    assert refusals.meaning("no table here reads version 47") == newer == "the message is newer than all tables here"
    from bufr import skipped
    for why in (skipped.CUT, skipped.TEXT, "packed"):
        assert re.search(rf"^\| `skipped N octets: ..` \|.*\b{why}\b", read(f"{TOP}/docs/MANUAL.md").decode(), re.M), why


@pytest.mark.parametrize("text, said", [
    ("name,WMO\nx,10384\n", "{} has no column station: its first row is name,WMO; write names there, as station,name,expected"),
    ("10384\n06610\n", "{} has no column station: its first row is 10384; write names there, as station,name,expected"),
    ("", "{} has no column station: its first row is empty; write names there, as station,name,expected"),
    *((f"station\n10384\n{word}\n", f"{{}}:3: {word} is no station: write 06610, 0-20000-0-06610 or the name of a ship, or name the columns "
       "block and station") for word in ("610", "10384.5", "6", "0-20000-10384", "LINDENBERG", "0-20000-0-")),
    ("block,station\n10,384\n6,\n", "{}:3: 6 is no station: write 06610, 0-20000-0-06610 or the name of a ship, or name the columns block "
     "and station"),
    ("block,station\n110,384\n", "{}:2: 110 384 is no station: write 06610, 0-20000-0-06610 or the name of a ship, or name the columns block "
     "and station"),
    ("station\n06610\n6610\n", "{}:3: 6610 stands there twice"),
    ("station,expected\n10384,x\n", "{}:2: expected is a number, not x"),
    ("station\n10384\n0-20000-0-10384\n", "{}:3: 0-20000-0-10384 stands there twice")])
def test_faults_of_a_list(text, said, folder):
    path = write(f"{folder}/stations.csv", text)
    assert command("report", "-o", f"{folder}/report.html", "--no-map", "--expect", path, SAMPLES[0]) == (
        2, "", f"bufr-report: {said.format(path)}\n")
    assert not os.path.exists(f"{folder}/report.html")


@pytest.mark.parametrize("text", [
    "station,name,expected\n06610,Payerne,1\n10384,Berlin,2\n", "station,name,expected\n6610,Payerne,1\n10384,Berlin,2\n",
    "Station;Name;Expected\r\n6610.0;Payerne;1.0\r\n10384.0;Berlin;2.0\r\n", "STATION\tname\tEXPECTED\n 06610 \tPayerne\t1\n10384\tBerlin\t2\n",
    "block,station,name,expected\n6,610,Payerne,1\n10,384,Berlin,2\n", "name;block;station;expected\nPayerne;06;610.0;1\nBerlin;10.0;384;2\n"])
def test_lists_as_tables_of_other_programs_write_them(text, folder):
    """A zero that is lost, numbers with a point, the two numbers of a station, capitals, other delimiters."""
    found = report.stations_of(write(f"{folder}/stations.csv", text))
    assert [(key, each.station, each.name, each.expected) for key, each in found.items()] == [
        ("06610", "06610", "Payerne", 1), ("10384", "10384", "Berlin", 2)]


@pytest.mark.parametrize("encoding", ["utf-8", "utf-8-sig", "cp1252"])
def test_a_list_in_the_encoding_of_excel(encoding, folder):
    """Also with octets at the end of a row and beside each other."""
    found = report.stations_of(write(f"{folder}/stations.csv", "station,name\n10870,München-Süd äöü\n10384,Café\n".encode(encoding)))
    assert [each.name for each in found.values()] == ["München-Süd äöü", "Café"]


@pytest.mark.parametrize("word", ["10384", "0-20000-5-AB01", "0-276-1-K17A", "DBFR", "SHIP", "A B", "62001", "211331640", "1-1-1-0123456789ABCDEF"])
def test_what_is_a_station(word, folder):
    assert list(report.stations_of(write(f"{folder}/stations.csv", f"station\n{word}\n"))) == [word]


def test_missing_stations_and_losses_come_first(folder):
    """After the numbers, the reports first: above the map, and above the files."""
    path = write(f"{folder}/stations.csv", "station\n06610\n")
    cut = write(f"{folder}/cut.bufr", message(46) + message(46)[:20])
    page = f"{folder}/report.html"
    assert command("report", "-o", page, "--expect", path, cut, SAMPLES[-2])[0] == 1
    octets, found = read(page).decode(), Read(read(page))
    headings = re.findall("<h2>(.*?)</h2>", octets)
    assert headings[:6] == ["Stations that are expected", "Stations that are missing", "Stations that reported and are not in the list",
                            "What is refused or lost", "Map", "Reports of each hour"]
    assert next(iter(found.tables)) == "overview" and found.tables["overview"][1][0] == "reports"
    assert found.tables["losses"][1:] == [["a message that is cut or broken", "20", cut, "49"]]
    assert "Nothing is refused or lost." in of([SAMPLES[-2]]).texts and "losses" not in of([SAMPLES[-2]]).tables


def test_days_stand_for_many_hours(folder):
    """240 hours have a row each; of one more each day has one."""
    def page(count):
        fields = [f"001001 10, 001002 1, 004001 2024, 004002 1, 004003 {1 + hour // 24}, 004004 {hour % 24}" for hour in range(count)]
        write(f"{folder}/listing", listing(*fields))
        return of([write(f"{folder}/file", makers.encoded(f"{folder}/listing")[1])]).tables["hours"]
    minutes = [f"001001 10, 001002 1, 004001 2024, 004002 1, 004003 1, 004004 {at // 60}, 004005 {at % 60}" for at in range(250)]
    write(f"{folder}/listing", listing(*minutes))
    hours = of([write(f"{folder}/file", makers.encoded(f"{folder}/listing")[1])]).tables["hours"]
    assert [row[1] for row in hours] == ["reports", "60", "60", "60", "60", "10"]
    assert page(240)[0][0] == "hour (UTC)" and len(page(240)) == 241
    assert page(241)[0][0] == "day" and page(241)[1:] == [*[[f"2024-01-{day:02}", "24", ""] for day in range(1, 11)], ["2024-01-11", "1", ""]]


def test_places_of_many_refusals_and_names_are_text(folder):
    """The first fifty places; a name is escaped."""
    path = write(f"{folder}/<b>&\".bufr", message(46, edition=5) * 51 + message(46))
    page = of([path])
    assert page.tables["refusals"][1:] == [["M2 Edition 5", "the edition is neither 3 nor 4", "51", f"{path}: {' '.join(f'{49 * at:,}' for at in range(50))}; and 1 more"]]
    assert page.tables["files"][1][0] == path and "b" not in page.tags
    assert of([write(f"{folder}/file", message(46))]).tables.get("refusals") is None


def test_without_a_map_nothing_is_needed(folder):
    """Of a pipe; and without a position there is no picture."""
    path = f"{folder}/report.html"
    script = "import sys; sys.modules.update(matplotlib=None, cartopy=None); sys.argv[0] = 'bufr-report'; import bufr.report; " \
        "bufr.report.command()"
    done = subprocess.run(["/usr/bin/env", f"PYTHONPATH={TOP}/python", os.sys.executable, "-c", script, "-o", path, "--no-map"],
                          input=message(46), capture_output=True)
    assert (done.returncode, done.stderr) == (0, b"") and Read(read(path)).pictures == []
    assert command("report", "-o", path, f"{TOP}/examples/bulletin.bufr")[0] == 0
    page = Read(read(path))
    assert page.pictures == [] and "No report has a position." in page.texts
    is_alone(page, read(path))


def test_a_browser_shows_it(folder):
    """Chromium, without a network: its text has the numbers, the picture is shown, and a screenshot is taken."""
    browser = shutil.which("chromium") or shutil.which("chromium-browser")
    if not browser:
        pytest.skip("there is no chromium")
    path = f"{folder}/report.html"
    assert command("report", f"{TOP}/examples/standard/synop.bufr", "-o", path)[0] == 0
    words = [browser, "--headless", "--no-sandbox", "--disable-gpu", f"--user-data-dir={folder}/profile",
             "--host-resolver-rules=MAP * ~NOTFOUND"]
    shown = subprocess.run([*words, "--dump-dom", f"file://{path}"], capture_output=True, timeout=900)
    assert Read(shown.stdout).tables["overview"] == Read(read(path)).tables["overview"]
    subprocess.run([*words, f"--screenshot={folder}/shot.png", "--window-size=900,1200", f"file://{path}"], capture_output=True, timeout=900)
    assert read(f"{folder}/shot.png").startswith(b"\x89PNG") and os.path.getsize(f"{folder}/shot.png") > 30000
