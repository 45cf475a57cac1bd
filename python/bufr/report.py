"""Writes one page of HTML about BUFR files: which stations of a list did not report, and which that reported it lacks; what is refused by
reason with its places, and what is lost; the map of bufr-map, the reports of each hour, and what bufr-summary counts. The page has its
picture inside, no script, and asks for nothing from elsewhere.

STATIONS.csv is a CSV file (UTF-8 or Windows-1252) with a column station (10384, 0-20000-0-10384 or the name of a ship), and if it is there a column name and a
column expected: how many reports of different times are expected of the station. A number of four or five digits is that of a WMO
station, also without its zero or with .0 at its end; or the columns block and station have its two numbers. Stations are counted as WDQMS
does: not received, below 30 percent of what is expected, below 80 percent, normal, and more than expected.

The map needs matplotlib, cartopy and its coastlines (Debian: python3-matplotlib, python3-cartopy, python-cartopy-data). The status is 1
if a message was refused."""
import base64
import csv
import html
import io
import re

from . import __version__
from . import drawing, summary, summary_text
from . import tables as bufr_tables
from .commands import entry
from .csv_input import open_csv, wmo_number
from .errors import Fault
from .given import Files
from .heads import GROUPS
from .map import drawn_of, title_of, write_whole
from .parsers import add_inputs, parser_of
from .refusals import meaning

# The most rows of the reports of each hour; beyond it they are those of each day. And the most places of a reason.
MOST_HOURS, MOST_PLACES = 240, 50
# The most stations that are named beside a list, and the most losses.
MOST_BESIDE = 1000
# What else is a station: a WIGOS identifier, and what the nine characters of a ship or a mobile station hold.
OTHER = re.compile(r"\d-\d{1,5}-\d{1,5}-[0-9A-Za-z]{1,16}|(?![0-9]{1,3}\Z|[0-9]+\.[0-9]*\Z)[!-~][ -~]{0,8}", re.A)
PART = re.compile(r"(\d{1,3})(?:\.0)?", re.A)
FORM = "station,name,expected"
NOT_RECEIVED, NO_SCHEDULE = "not received", "none expected"
# The least percentage of each class of stations, from the greatest on.
CLASSES = ((80, "normal (80 percent or more)"), (30, "availability issues (30 percent or more)"),
           (0, "availability issues (below 30 percent)"))
MORE = "more than 100 percent"
STYLE = """body{font:15px/1.45 sans-serif;color:#222;max-width:66em;margin:2em auto;padding:0 1em}
h1{font-size:1.6em}h2{font-size:1.2em;margin-top:2em;border-bottom:1px solid #bbb}
table{border-collapse:collapse;margin:1em 0}th,td{padding:.15em .8em .15em 0;text-align:left;vertical-align:top}
thead th{border-bottom:1px solid #888}td.n,th.n{text-align:right;font-variant-numeric:tabular-nums}
img{max-width:100%}.bar{display:inline-block;height:.8em;background:#3b6ea5}"""


class Listed:
    """A station of a list: its name, how many reports are expected of it, and how many moments it reported."""

    def __init__(self, station, name, expected):
        self.station, self.name, self.expected, self.received = station, name, expected, 0

    def kind(self):
        """The class of a station, as WDQMS has them."""
        if not self.received:
            return NOT_RECEIVED
        if self.expected is None:
            return "received"
        if self.expected == 0:
            return NO_SCHEDULE
        if self.received > self.expected:
            return MORE
        return next(word for least, word in CLASSES if 100 * self.received >= least * self.expected)


def identifier_of(word):
    """The identifier of a station as a key: the WMO number of a station that has one."""
    return wmo_number(word) or word


def station_of(row):
    """The identifier that a row of a list has, or nothing; raises ValueError with what is no station."""
    word, block = row.get("station", ""), row.get("block", "")
    if block:
        numbers = [PART.fullmatch(each) for each in (block, word)]
        if None in numbers or int(block.partition(".")[0]) > 99:
            raise ValueError(f"{block} {word}".rstrip())
        return "{:02}{:03}".format(*(int(each[1]) for each in numbers))
    if word and not wmo_number(word) and not OTHER.fullmatch(word):
        raise ValueError(word)
    return identifier_of(word)


def rows_of_list(file, path):
    """Yields the place and the cells of each row of a list by the names of its columns, in lower case. Its delimiter is the one that its
    header has most."""
    head = file.readline()
    delimiter = max(",;\t", key=head.count)
    names = [name.strip().lower() for name in next(csv.reader([head], delimiter=delimiter), [])]
    if "station" not in names:
        raise Fault(f"{path} has no column station: its first row is {head.strip() or 'empty'}; write names there, as {FORM}")
    rows = csv.reader(file, delimiter=delimiter)
    for row in rows:
        yield f"{path}:{rows.line_num + 1}", dict(reversed(list(zip(names, (cell.strip() for cell in row)))))


def stations_of(path):
    """The stations of a list, by their identifiers."""
    found = {}
    try:
        with open_csv(path) as file:
            for place, row in rows_of_list(file, path):
                expected = row.get("expected", "")
                try:
                    station = station_of(row)
                except ValueError as error:
                    raise Fault(f"{place}: {error} is no station: write 06610, 0-20000-0-06610 or the name of a ship, or name the columns "
                                "block and station") from None
                if not station:
                    continue
                if not re.fullmatch(r"(?:[0-9]+(?:\.0)?)?", expected):
                    raise Fault(f"{place}: expected is a number, not {expected}")
                if station in found:
                    raise Fault(f"{place}: {row['station']} stands there twice")
                # a number is shown with its zero
                shown = row["station"] if row["station"].endswith(station) else station
                found[station] = Listed(shown, row.get("name", ""), int(expected.partition(".")[0]) if expected else None)
            return found
    except (OSError, csv.Error) as error:
        raise Fault(f"cannot read {path}: {getattr(error, 'strerror', None) or error}") from error


def compared(listed, reports):
    """Counts the moments of the stations of a list, and returns those that it lacks: their identifiers, with how many moments each."""
    beside = {}
    for (_, identifier), seen in reports.stations.items():
        station = listed.get(identifier_of(identifier))
        if station is None:
            beside[identifier] = len(seen.moments)
        else:
            station.received += len(seen.moments)
    return beside


class Page:
    """The text of a page."""

    def __init__(self, title):
        self.parts = [f'<!DOCTYPE html>\n<html lang="en">\n<head>\n<meta charset="utf-8">\n<meta http-equiv="Content-Security-Policy" '
                      f'content="default-src \'none\'; img-src data:; style-src \'unsafe-inline\'">\n<title>{escaped(title)}</title>\n'
                      f'<style>\n{STYLE}\n</style>\n</head>\n<body>\n<h1>{escaped(title)}</h1>\n']

    def put(self, text):
        self.parts.append(text + "\n")

    def heading(self, text):
        self.put(f"<h2>{escaped(text)}</h2>")

    def paragraph(self, text):
        self.put(f"<p>{escaped(text)}</p>")

    def table(self, name, titles, rows):
        """Adds a table without its empty columns. Cells that are numbers are at the right."""
        kept = [at for at in range(len(titles)) if any(row[at] != "" for row in rows)]
        titles, rows = [titles[at] for at in kept], [[row[at] for at in kept] for row in rows]
        head = "".join(cell("th", title, bool(rows) and is_number(rows[0][at])) for at, title in enumerate(titles))
        self.put(f'<table id="{name}">\n<thead><tr>{head}</tr></thead>\n<tbody>')
        for row in rows:
            self.put(f'<tr>{"".join(cell("td", each, is_number(each)) for each in row)}</tr>')
        self.put("</tbody>\n</table>")

    def part(self, heading, name, titles, rows):
        """Adds a heading and a table, if it has rows."""
        if rows:
            self.heading(heading)
            self.table(name, titles, rows)

    def octets(self):
        return ("".join(self.parts) + "</body>\n</html>\n").encode("utf-8", "replace")


class Markup(str):
    """A text that is HTML already."""


def is_number(value):
    return isinstance(value, int)


def escaped(text):
    return text if isinstance(text, Markup) else html.escape(str(text))


def cell(tag, value, is_right):
    return f'<{tag}{" class=n" * is_right}>{f"{value:,}" if is_number(value) else escaped(value)}</{tag}>'


def put_overview(page, contents, reports):
    """Adds the numbers of all files together."""
    kinds = reports.kinds()
    page.table("overview", ("", "number"), [
        ("reports", reports.with_key + reports.without_key), ("reports with a key", reports.with_key),
        ("reports without a key", reports.without_key), *((f"{kind} stations", count) for kind, count in kinds.items()),
        ("messages", contents.all.messages), ("messages refused", contents.all.refused), ("subsets", contents.all.subsets),
        ("files", len(contents.files)), ("octets", sum(each.octets for each in contents.files)),
        ("octets between messages", sum(contents.between))])
    page.paragraph("Time of the messages: " + summary_text.span(summary_text.said_of(contents.first), summary_text.said_of(contents.last)))
    page.paragraph("Time of the reports: " + summary_text.span(*(each and each.isoformat(" ") for each in (reports.first, reports.last))))


def put_files(page, contents):
    page.heading("Files")
    page.table("files", ("file", "octets", "messages", "subsets", "refused", "between", "skipped"), [
        (each.name, each.octets, count.messages, count.subsets, count.refused, between,
         "; ".join(f"{loss.length:,} octets at {loss.place:,}: {loss.why}" for loss in losses) or ("" if each.octets else "empty"))
        for each, count, between, losses in zip(contents.files, contents.of_file, contents.between, contents.losses)])


def put_groups(page, contents):
    for group in GROUPS:
        page.part(f"Messages by {group}", group, (group, "messages", "subsets", "refused"), [
            (summary_text.labelled(group, word), count.messages, count.subsets, count.refused)
            for word, count in summary_text.rows_of(contents, group)])


def put_map(page, reports):
    """Adds the map, as a picture that the page has inside."""
    page.heading("Map")
    points = reports.counts()
    if not points:
        page.paragraph("No report has a position.")
        return
    out = io.BytesIO()
    drawing.draw(out, "png", points, "reports", f"{title_of(reports)}\n{drawn_of(reports, points, True)}", True)
    picture = base64.b64encode(out.getvalue()).decode()
    page.put(f'<img alt="{len(points):,} positions on a map" src="data:image/png;base64,{picture}">')


def put_hours(page, reports):
    """Adds how many reports each hour has, or each day if there are many hours."""
    by_day = len(reports.hours) > MOST_HOURS
    counts = {}
    for hour, count in reports.hours.items():
        when = hour.date().isoformat() if by_day else f"{hour:%Y-%m-%d %H}"
        counts[when] = counts.get(when, 0) + count
    page.heading(f"Reports of each {'day' if by_day else 'hour'}")
    most = max(counts.values(), default=0)
    rows = [(when, count, Markup(f'<span class="bar" style="width:{20 * count / most:.2f}em"></span>'))
            for when, count in sorted(counts.items())]
    if rows:
        page.table("hours", ("day" if by_day else "hour (UTC)", "reports", ""), rows)
    page.paragraph(f"Reports without a time: {reports.without_moment:,}")


def put_refusals(page, contents):
    """Adds the reasons of refusals, with the places of each file, and what else is lost of each file."""
    page.heading("What is refused or lost")
    losses = [(loss.why, loss.length, each.name, loss.place) for each, found in zip(contents.files, contents.losses) for loss in found]
    if not contents.reasons and not losses:
        page.paragraph("Nothing is refused or lost.")
    if contents.reasons:
        put_reasons(page, contents)
    if losses:
        page.table("losses", ("lost", "octets", "file", "place, in octets from 0"), losses[:MOST_BESIDE])
    if len(losses) > MOST_BESIDE:
        page.paragraph(f"And {len(losses) - MOST_BESIDE:,} more.")


def put_reasons(page, contents):
    places = {}
    for each in contents.refusals:
        places.setdefault(each.reason, []).append(each)
    rows = []
    for reason, times in summary_text.reasons_of(contents):
        here = {}
        for each in places[reason][:MOST_PLACES]:
            here.setdefault(each.file, []).append(f"{each.place:,}")
        said = "; ".join(f"{file}: {' '.join(found)}" for file, found in here.items())
        rows.append((reason, meaning(reason), times, said + (f"; and {times - MOST_PLACES:,} more" if times > MOST_PLACES else "")))
    page.table("refusals", ("refusal", "means", "messages", "places, in octets from 0"), rows)


def put_stations(page, reports, listed):
    """Adds the stations of a list by their classes, those that did not report, and those that the list lacks."""
    beside = compared(listed, reports)
    page.heading("Stations that are expected")
    classes = {}
    for each in listed.values():
        classes.setdefault(each.kind(), []).append(each)
    order = [MORE, *(word for _, word in CLASSES), "received", NO_SCHEDULE, NOT_RECEIVED]
    rows = [(word, len(classes[word])) for word in order if word in classes]
    page.table("classes", ("class", "stations"), [*rows, ("in the list", len(listed)), ("reported, and not in the list", len(beside))])
    page.part("Stations that are missing", "missing", ("station", "name", "expected"), [
        (each.station, each.name, "" if each.expected is None else each.expected) for each in classes.get(NOT_RECEIVED, ())])
    fewer = [each for _, word in CLASSES[1:] for each in classes.get(word, ())]
    page.part("Stations with availability issues", "fewer", ("station", "name", "expected", "received"), [
        (each.station, each.name, each.expected, each.received) for each in sorted(fewer, key=lambda each: each.received / each.expected)])
    page.part("Stations that reported and are not in the list", "beside", ("station", "received"), sorted(beside.items())[:MOST_BESIDE])
    if len(beside) > MOST_BESIDE:
        page.paragraph(f"And {len(beside) - MOST_BESIDE:,} more.")


def page_of(contents, reports, listed=None, with_map=True, title="BUFR files"):
    """The page, as octets."""
    page = Page(title)
    put_overview(page, contents, reports)
    if listed is not None:
        put_stations(page, reports, listed)
    put_refusals(page, contents)
    if with_map:
        put_map(page, reports)
    put_hours(page, reports)
    put_files(page, contents)
    put_groups(page, contents)
    page.put(f"<p>Made by bufr-report {__version__}.</p>")
    return page.octets()


def main():
    parser = parser_of("report", __doc__)
    parser.add_argument("-o", metavar="OUT", required=True, help="the page that is written, as report.html")
    parser.add_argument("--expect", metavar="STATIONS.csv", help="the stations that are expected to report")
    parser.add_argument("--no-map", action="store_true", help="leaves out the map")
    add_inputs(parser)
    arguments = parser.parse_args()
    if not arguments.no_map:
        drawing.run_by_debian("report")
    paths = bufr_tables.TablesByVersion.chosen(arguments).paths
    listed = stations_of(arguments.expect) if arguments.expect else None
    with Files(arguments.files, parser.prog) as files:
        if not arguments.no_map:
            drawing.need(parser.prog)
        contents, reports = summary.read(files, paths, with_data=True, name=parser.prog, quiet=arguments.quiet)
        write_whole(arguments.o, page_of(contents, reports, listed, not arguments.no_map))
    print(f"{arguments.o}: {title_of(reports)}, {contents.all.refused:,} of {contents.all.messages:,} messages refused")
    return summary.status_of(contents)


command = entry("report", main)
