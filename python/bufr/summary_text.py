"""What bufr-summary counts, as text."""
from .heads import GROUPS
from .summary import MOST_READ

# The data categories (Table A).
CATEGORIES = {0: "surface data, land", 1: "surface data, sea", 2: "vertical soundings, not by satellite",
              3: "vertical soundings by satellite", 4: "single-level upper-air data, not by satellite",
              5: "single-level upper-air data by satellite", 6: "radar data", 7: "synoptic features",
              8: "physical and chemical constituents", 9: "dispersal and transport", 10: "radiological data", 11: "BUFR tables",
              12: "surface data by satellite", 13: "forecasts", 14: "warnings", 20: "status information", 21: "radiances by satellite",
              22: "radar by satellite", 23: "lidar by satellite", 24: "scatterometry by satellite", 25: "altimetry by satellite",
              26: "spectrometry by satellite", 27: "gravity by satellite", 28: "precise orbits of satellites", 29: "space environment",
              30: "calibration datasets by satellite", 31: "oceanographic data", 101: "image data"}
# How many rows of a table are printed.
MOST_ROWS = 20


def said_of(moment):
    """A moment as numbers, as text."""
    return "{:04}-{:02}-{:02} {:02}:{:02}:{:02}".format(*moment) if moment else None


def rows_of(contents, group):
    """The rows of a group, the most messages first: what they have in common, and their counts."""
    def order(row):
        word, count = row
        first = word.partition(" ")[0]
        return -count.messages, not first, int(first or 0), word
    return sorted(contents.by[group].items(), key=order)


def headings_of(contents):
    return sorted(contents.headings().items(), key=lambda each: (-each[1], each[0]))


def reasons_of(contents):
    return sorted(contents.reasons.items(), key=lambda each: (-each[1], each[0]))


def span(first, last):
    return f"{first} to {last}" if first != last else first or "none"


def lines_of(contents, reports, with_headings=False):
    """What was counted, as lines of text."""
    octets = sum(each.octets for each in contents.files)
    yield f"files {len(contents.files):,}, octets {octets:,}, of them {sum(contents.between):,} between messages"
    for each, losses in zip(contents.files, contents.losses):
        for loss in losses:
            yield f"{each.name}: {loss.length:,} octets at {loss.place}: {loss.why}"
        if not each.octets:
            yield f"{each.name}: empty"
    yield f"messages {contents.all.messages:,}, refused {contents.all.refused:,}, subsets {contents.all.subsets:,}"
    yield f"time of the messages: {span(said_of(contents.first), said_of(contents.last))}"
    if reports is None:
        yield f"data: not read, since --data is not given for more than {MOST_READ:,} octets"
    else:
        yield f"reports {reports.with_key + reports.without_key:,}: with a key {reports.with_key:,}, without {reports.without_key:,}"
        yield f"time of the reports: {span(*(each and each.isoformat(' ') for each in (reports.first, reports.last)))}"
        yield "stations: " + ", ".join(f"{kind} {count:,}" for kind, count in reports.kinds().items())
    if len(contents.files) > 1:
        yield from table(("messages", "subsets", "refused"), "file", [
            ((count.messages, count.subsets, count.refused), each.name) for each, count in zip(contents.files, contents.of_file)])
    for group in GROUPS if contents.all.messages else ():
        yield from table(("messages", "subsets", "refused"), group, [
            ((count.messages, count.subsets, count.refused), labelled(group, word)) for word, count in rows_of(contents, group)])
    if contents.reasons:
        firsts = {}
        for each in contents.refusals:
            firsts.setdefault(each.reason, f", first at {each.place} of {each.file}")
        yield from table(("messages",), "refusal", [
            ((times,), reason + firsts.get(reason, "")) for reason, times in reasons_of(contents)])
    if with_headings:
        yield from table(("messages",), "heading", [((times,), heading or "none") for heading, times in headings_of(contents)])


def labelled(group, word):
    """What messages have in common, in words."""
    if group == "category" and word.isdigit():
        return f"{word} {CATEGORIES.get(int(word), '')}".rstrip()
    return word or "not read"


def table(titles, last, rows):
    """The lines of a table: numbers, and what they are of."""
    yield ""
    yield "".join(f"{title:>10}" for title in titles) + f"  {last}"
    for numbers, word in rows[:MOST_ROWS]:
        yield "".join(f"{each:>10,}" for each in numbers) + f"  {word}"
    if len(rows) > MOST_ROWS:
        yield f"{'..':>10}  {len(rows) - MOST_ROWS:,} more, which --json has"
