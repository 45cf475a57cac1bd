"""What bufr-summary counts, as JSON."""
from .heads import GROUPS
from .summary_text import headings_of, reasons_of, rows_of, said_of


def counts_of(count):
    return {"messages": count.messages, "subsets": count.subsets, "refused": count.refused}


def json_of(contents, reports, with_headings=False):
    """What was counted, as it is printed as JSON."""
    number = lambda word: int(word) if word.isdigit() else word or None
    found = {**counts_of(contents.all), "octets": sum(each.octets for each in contents.files), "between": sum(contents.between),
             "time": [said_of(contents.first), said_of(contents.last)], "data_read": contents.is_read}
    found["files"] = [{"file": each.name, "octets": each.octets, **counts_of(count), "between": between,
                       "skipped": [{"place": loss.place, "octets": loss.length, "why": loss.why} for loss in losses]}
                      for each, count, between, losses in zip(contents.files, contents.of_file, contents.between, contents.losses)]
    for group in GROUPS:
        found[group] = [{group: number(word) if group != "descriptors" else word.split(), **counts_of(count)}
                        for word, count in rows_of(contents, group)]
    found["reasons"] = [{"reason": reason, "messages": times} for reason, times in reasons_of(contents)]
    if reports is not None:
        found["refusals"] = [each._asdict() for each in contents.refusals]
        found["reports"] = {"with_key": reports.with_key, "without_key": reports.without_key,
                            "time": [each and each.isoformat(" ") for each in (reports.first, reports.last)]}
        found["stations"] = reports.kinds()
    if with_headings:
        found["headings"] = [{"heading": heading or None, "messages": times} for heading, times in headings_of(contents)]
    return found
