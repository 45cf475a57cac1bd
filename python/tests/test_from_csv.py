"""bufr-from-csv: what a mapping says of a CSV file."""
import json
import os
import re
import sys
from decimal import Decimal

import pytest

from conftest import TOP, command, inside, read, run, text, write

FOLDER = f"{TOP}/examples/csv"
SYNOP, WIGOS = f"{FOLDER}/synop.csv", f"{FOLDER}/wigos.csv"
KELVIN, PASCAL = (1, "273.15"), (100, 0)
SAME = (1, 0)
# Of each column of the examples its field, with a number, and the factor and the offset that make the field's value of it.
COLUMNS = {
    "synop": {"name": ("001015", 1, None), "lat": ("005001", 1, SAME), "lon": ("006001", 1, SAME), "height": ("007030", 1, SAME),
              "barometer": ("007031", 1, SAME), "pressure": ("010004", 1, PASCAL), "sea_level": ("010051", 1, PASCAL),
              "temp": ("012101", 1, KELVIN), "dew": ("012103", 1, KELVIN), "humidity": ("013003", 1, SAME),
              "visibility": ("020001", 1, (1000, 0)), "rain_24h": ("013023", 1, SAME), "cloud": ("020010", 1, SAME),
              "layers": ("031001", 1, SAME), "amount_1": ("020011", 2, SAME), "type_1": ("020012", 4, SAME),
              "base_1": ("020013", 2, SAME), "amount_2": ("020011", 3, SAME), "type_2": ("020012", 5, SAME),
              "base_2": ("020013", 3, SAME), "weather": ("020003", 1, SAME), "t_max": ("012111", 1, KELVIN),
              "t_min": ("012112", 1, KELVIN), "wind_from": ("011001", 1, SAME), "wind": ("011002", 1, SAME),
              "gust": ("011041", 1, SAME), "snow": ("013013", 1, ("0.01", 0))},
    "wigos": {"name": ("001015", 1, None), "lat": ("005001", 1, SAME), "lon": ("006001", 1, SAME), "height": ("007030", 1, SAME),
              "pressure": ("010004", 1, PASCAL), "temp": ("012101", 1, KELVIN), "dew": ("012103", 1, KELVIN),
              "humidity": ("013003", 1, SAME), "wind_from": ("011001", 1, SAME), "wind": ("011002", 1, ("0.2777777777777777777777777778", 0)),
              "rain_1h": ("013011", 1, SAME), "sunshine": ("014031", 1, (60, 0))}}


def table(path):
    """The rows of an example, as dicts. It has no quotes."""
    header, *rows = [re.split("[,;]" if path == SYNOP else ";", line) for line in read(path).decode().splitlines()]
    return [dict(zip(header, row)) for row in rows]


def made(path, *words):
    """What bufr-from-csv says, with the file that it writes."""
    out = f"{path}.bufr"
    status, printed, error = inside("from-csv", "-o", out, *words)
    assert printed == ""
    return status, error, out


def features(path, *words):
    status, out, error = inside("geojson", "--lines", *words, path)
    assert (status, error) == (0, "")
    return [json.loads(line, parse_float=Decimal) for line in out.splitlines()]


def listing(path):
    status, out, error = run("sh", f"{TOP}/bufr", "show", path)
    assert (status, error) == (0, "")
    return out


@pytest.mark.parametrize("name", ["synop", "wigos"])
def test_the_values_of_the_csv_come_back(name, folder):
    status, error, path = made(f"{folder}/a", f"{FOLDER}/{name}.json", f"{FOLDER}/{name}.csv")
    assert (status, error) == (0, "")
    found, rows = features(path, "--missing"), table(f"{FOLDER}/{name}.csv")
    assert len(found) == len(rows) == {"synop": 5, "wigos": 3}[name]
    compared = missing = 0
    for feature, row in zip(found, rows):
        values = {}
        for element in feature["properties"]["elements"]:
            values.setdefault(element["descriptor"], []).append(element["value"])
        # the fields of a layer that a row has not, also in the numbers of the fields that follow
        layers = int(row.get("layers", 0))
        for column, (descriptor, number, conversion) in COLUMNS[name].items():
            cell = row[column].replace(",", ".")
            if column[-2:] in ("_1", "_2") and int(column[-1]) > layers:
                assert cell == ""
                continue
            value = values[descriptor][number - 1]
            if cell in ("", "NA"):
                assert value is None, column
                missing += 1
            elif conversion is None:
                assert value == cell
            else:
                assert value == round(Decimal(cell) * Decimal(conversion[0]) + Decimal(conversion[1]), 6), column
            compared += 1
    assert (compared, missing) == {"synop": (117, 11), "wigos": (36, 2)}[name]


def test_a_row_becomes_these_fields(folder):
    """Typed by hand from the first row of each example and its mapping."""
    status, error, path = made(f"{folder}/a", f"{FOLDER}/synop.json", SYNOP)
    assert (status, error) == (0, "")
    synop = listing(path).split("end\n")[0].splitlines()
    assert synop[:6] == ["message", "section1 78 0 0 0 2 255 46 0", "time 2024 1 15 12 0 0", "flags observed", "descriptors 307080",
                         "subset"]
    assert [line for line in synop[6:] if not line.endswith(" missing")] == [
        "001001 10", "001002 384", '001015 "BERLIN-TEMPELHOF    "', "002001 1", "004001 2024", "004002 1", "004003 15", "004004 12",
        "004005 0", "005001 52.46750", "006001 13.40214", "007030 48.0", "007031 49.2", "010004 101020", "010051 101630", "007032 2.00",
        "012101 277.25", "012103 274.35", "013003 81", "020001 12000", "007032 1.00", "013023 1.3", "020010 88", "031001 2",
        "008002 1", "020011 5", "020012 6", "020013 400", "008002 2", "020011 3", "020012 3", "020013 2400", "031001 0",
        "013013 0.00", "020003 60", "007032 2.00", "004024 -24", "004024 0", "012111 278.15", "004024 -24", "004024 0",
        "012112 274.45", "007032 10.00", "008021 2", "004025 -10", "011001 250", "011002 4.8", "004025 -60", "011041 8.2"]
    status, error, path = made(f"{folder}/b", f"{FOLDER}/wigos.json", WIGOS)
    assert (status, error) == (0, "")
    wigos = listing(path).split("end\n")[2].splitlines()
    assert wigos[:6] == ["message", "section1 78 0 0 0 7 255 46 0", "time 2024 1 15 11 50 0", "flags observed",
                         "descriptors 301150 307080", "subset"]
    assert [line for line in wigos[6:] if not line.endswith(" missing")] == [
        "001125 0", "001126 276", "001127 1", '001128 "K17A            "', '001015 "ZUGSPITZE PLATT     "', "002001 0", "004001 2024",
        "004002 1", "004003 15", "004004 11", "004005 50", "005001 47.40500", "006001 10.98300", "007030 2250.0", "010004 76410",
        "007032 2.00", "012101 261.75", "012103 258.15", "031001 0", "031001 0", "004024 -1", "014031 60", "007032 1.00",
        "004024 -1", "013011 0.0", "007032 10.00", "008021 2", "004025 -10", "011001 300", "011002 7.5"]


TEMPERATURE = "012101 TEMPERATURE/AIR TEMPERATURE [K]: wanted a number with 2 digits after the point, from 0.00 to 655.34, or missing"
# The row and column of a cell of the first example, what is put in its place, and what is said of it.
WRONG = [
    (2, "station", "103", "wanted a number IIiii, as 06610 or 6610; found 103"),
    (2, "name", "BERLIN-TEMPELHOF AIRPORT", "001015 STATION OR SITE NAME [CCITT IA5]: wanted a text of at most 20 characters, or missing; "
     "found BERLIN-TEMPELHOF AIRPORT: it has 24 characters"),
    (2, "time", "15.01.2024 12:00", "wanted a time as 2024-01-15T12:00:00Z; found 15.01.2024 12:00"),
    (2, "lat", "95", "005001 LATITUDE (HIGH ACCURACY) [deg]: wanted a number with 5 digits after the point, from -90.00000 to 245.54430, "
     "or missing; found 95: it is above 90, the greatest one of the mapping"),
    (2, "lon", "13.402145", "006001 LONGITUDE (HIGH ACCURACY) [deg]: wanted a number with 5 digits after the point, from -180.00000 to "
     "491.08862, or missing; found 13.402145: it has 6 digits after the point"),
    (2, "height", "48m", "007030 HEIGHT OF STATION GROUND ABOVE MEAN SEA LEVEL [m]: wanted a number with 1 digit after the point, from -400.0 "
     "to 12707.0, or missing; found 48m: it is no number"),
    (2, "barometer", "12707.1", "007031 HEIGHT OF BAROMETER ABOVE MEAN SEA LEVEL [m]: wanted a number with 1 digit after the point, from "
     "-400.0 to 12707.0, or missing; found 12707.1: it is too great"),
    (2, "pressure", "1010.25", "010004 PRESSURE [Pa]: wanted a number in steps of 10, without a point, from 0 to 163820, or missing; found "
     "1010.25 hPa: 101025 Pa, which is no multiple of 10"),
    (2, "sea_level", "101630", "010051 PRESSURE REDUCED TO MEAN SEA LEVEL [Pa]: wanted a number in steps of 10, without a point, from 0 to "
     "163820, or missing; found 101630 hPa: 10163000 Pa, which is too great"),
    (2, "temp", "-300", f"{TEMPERATURE}; found -300 °C: -26.85 K, which is too small"),
    (2, "dew", "1;2", "012103 DEWPOINT TEMPERATURE [K]: wanted a number with 2 digits after the point, from 0.00 to 655.34, or missing; "
     "found 1;2 °C: it is no number"),
    (2, "humidity", "127", "013003 RELATIVE HUMIDITY [%]: wanted a number without a point, from 0 to 126, or missing; found 127: "
     "it is too great"),
    (2, "visibility", "82", "020001 HORIZONTAL VISIBILITY [m]: wanted a number in steps of 10, without a point, from 0 to 81900, or missing; "
     "found 82 km: 82000 m, which is too great"),
    (2, "rain_24h", "1.25", "013023 TOTAL PRECIPITATION PAST 24 HOURS [kg m-2]: wanted a number with 1 digit after the point, from -0.1 to "
     "1638.1, or missing; found 1.25 mm: it has 2 digits after the point"),
    (2, "cloud", "88.5", "020010 CLOUD COVER (TOTAL) [%]: wanted a number without a point, from 0 to 126, or missing; found 88.5: it has 1 "
     "digit after the point"),
    (2, "layers", "3", "031001 DELAYED DESCRIPTOR REPLICATION FACTOR [Numeric]: wanted a count without a point, from 0 to 255, never missing; "
     "found 3: it is above 2, the greatest one of the mapping"),
    (2, "amount_1", "15", "020011#2 CLOUD AMOUNT [Code table]: wanted a number without a point, from 0 to 14, or missing; found 15: it is "
     "too great"),
    (2, "type_1", "63", "020012#4 CLOUD TYPE [Code table]: wanted a number without a point, from 0 to 62, or missing; found 63: it is too "
     "great"),
    (2, "base_1", "405", "020013#2 HEIGHT OF BASE OF CLOUD [m]: wanted a number in steps of 10, without a point, from -400 to 20060, or "
     "missing; found 405: it is no multiple of 10"),
    (2, "base_2", "-410", "020013#3 HEIGHT OF BASE OF CLOUD [m]: wanted a number in steps of 10, without a point, from -400 to 20060, or "
     "missing; found -410: it is too small"),
    (2, "weather", "511", "020003 PRESENT WEATHER [Code table]: wanted a number without a point, from 0 to 510, or missing; found 511: it is "
     "too great"),
    (2, "t_max", "five", "012111 MAXIMUM TEMPERATURE, AT HEIGHT AND OVER PERIOD SPECIFIED [K]: wanted a number with 2 digits after the "
     "point, from 0.00 to 655.34, or missing; found five °C: it is no number"),
    (2, "t_min", "382.2", "012112 MINIMUM TEMPERATURE, AT HEIGHT AND OVER PERIOD SPECIFIED [K]: wanted a number with 2 digits after the "
     "point, from 0.00 to 655.34, or missing; found 382.2 °C: 655.35 K, which is too great"),
    (2, "wind_from", "-1", "011001 WIND DIRECTION [deg]: wanted a number without a point, from 0 to 510, or missing; found -1: it is too "
     "small"),
    (2, "wind", "409.5", "011002 WIND SPEED [m/s]: wanted a number with 1 digit after the point, from 0.0 to 409.4, or missing; found 409.5: "
     "it is too great"),
    (2, "gust", "4.85", "011041 MAXIMUM WIND GUST SPEED [m/s]: wanted a number with 1 digit after the point, from 0.0 to 409.4, or missing; "
     "found 4.85: it has 2 digits after the point"),
    (2, "snow", "65533", "013013 TOTAL SNOW DEPTH [m]: wanted a number with 2 digits after the point, from -0.02 to 655.32, or missing; found "
     "65533 cm: 655.33 m, which is too great"),
    (3, "name", "LEIPZIG/HALLE Ü", "001015 STATION OR SITE NAME [CCITT IA5]: wanted a text of at most 20 characters, or missing; found "
     "LEIPZIG/HALLE Ü: 'Ü' is no character of CCITT IA5"),
    (3, "time", "2024-02-30T12:00Z", "wanted a time as 2024-01-15T12:00:00Z; found 2024-02-30T12:00Z"),
    (4, "layers", "", "031001 DELAYED DESCRIPTOR REPLICATION FACTOR [Numeric]: wanted a count without a point, from 0 to 255, never missing; "
     "found nothing: it can't be missing"),
    (5, "lat", "-90.00001", "005001 LATITUDE (HIGH ACCURACY) [deg]: wanted a number with 5 digits after the point, from -90.00000 to "
     "245.54430, or missing; found -90.00001: it is below -90, the least one of the mapping"),
    (5, "time", "", "wanted a time; found nothing"),
    (6, "amount_1", "3", "020011#2: the counts of this row leave it out; found 3"),
    (6, "temp", "272.75K", f"{TEMPERATURE}; found 272.75K °C: it is no number"),
]


def changed(path, cells):
    """The text of an example with other cells, by row and column."""
    mark = "," if path == SYNOP else ";"
    rows = [line.split(mark) for line in read(path).decode().splitlines()]
    for row, column, cell, *_ in cells:
        rows[row - 1][rows[0].index(column)] = cell
    return "".join(mark.join(row) + "\n" for row in rows).encode()


@pytest.mark.parametrize("has_file", [True, False])
def test_all_wrong_cells_are_told_and_nothing_is_written(has_file, folder):
    path = write(f"{folder}/a.csv", changed(SYNOP, WRONG))
    if has_file:
        write(f"{path}.bufr", b"as it was")
    status, error, out = made(path, f"{FOLDER}/synop.json", path)
    lines = error.splitlines()
    assert len(WRONG) == 34 and status == 1
    # the parts of the time and of the station are told once; counts come before the other cells of a row
    assert sorted(lines[:-1]) == sorted(f"bufr-from-csv: {path}: row {row}, column {column}: {said}" for row, column, _, said in WRONG)
    assert [int(re.search(r": row (\d+),", line)[1]) for line in lines[:-1]] == sorted(row for row, *_ in WRONG)
    assert lines[-1] == "bufr-from-csv: 34 cells do not fit: nothing is written; --round rounds 6 of them"
    assert os.path.exists(out) == has_file and (not has_file or read(out) == b"as it was")
    status, printed, error = command("from-csv", f"{FOLDER}/synop.json", path)
    assert (status, printed, len(error.splitlines())) == (1, "", 35)


@pytest.mark.parametrize("row, column, cell, said", WRONG, ids=[f"{row[0]} {row[1]}" for row in WRONG])
def test_each_wrong_cell_by_itself(row, column, cell, said, folder):
    path = write(f"{folder}/a.csv", changed(SYNOP, [(row, column, cell)]))
    status, error, out = made(path, f"{FOLDER}/synop.json", path)
    first, *rest = error.splitlines()
    assert (status, first) == (1, f"bufr-from-csv: {path}: row {row}, column {column}: {said}")
    # a count that leaves out what a row has
    assert len(rest) == 1 and rest[0].startswith("bufr-from-csv: 1 cell does not fit: nothing is written")
    assert not os.path.exists(out)


@pytest.mark.parametrize("row, column, cell, said", [
    (2, "wigos", "0-20000-10393", "column wigos: wanted a WIGOS identifier as 0-20000-0-10384; found 0-20000-10393"),
    (2, "wigos", "0-20000-0-12345678901234567", "column wigos: wanted a WIGOS identifier as 0-20000-0-10384; found 0-20000-0-12345678901234567"),
    (3, "wigos", "0-65535-0-A", "column wigos: 001126 WIGOS ISSUER OF IDENTIFIER [Numeric]: wanted a number without a point, from 0 to 65534, "
     "or missing; found 65535: it is too great"),
    (3, "hour", "24:00", "column date and hour: wanted a time as %d.%m.%Y %H:%M; found 15.01.2024 24:00"),
    (3, "date", "", "column date and hour: wanted a time as %d.%m.%Y %H:%M; found nothing"),
    (4, "wind", "17", "column wind: 011002 WIND SPEED [m/s]: wanted a number with 1 digit after the point, from 0.0 to 409.4, or missing; found "
     "17 km/h: 4.72222.. m/s, which has no end of digits after the point"),
    (4, "temp", "-11.4", f"column temp: {TEMPERATURE}; found -11.4 °C: it has a point, and \"decimal\" is \",\""),
    (4, "sunshine", "0,51", "column sunshine: 014031 TOTAL SUNSHINE [min]: wanted a number without a point, from 0 to 2046, or missing; found "
     "0,51 h: 30.6 min, which has 1 digit after the point")])
def test_wrong_cells_of_the_second_example(row, column, cell, said, folder):
    path = write(f"{folder}/a.csv", changed(WIGOS, [(row, column, cell)]))
    status, error, out = made(path, f"{FOLDER}/wigos.json", path)
    assert (status, error.splitlines()[0]) == (1, f"bufr-from-csv: {path}: row {row}, {said}")
    assert not os.path.exists(out)


# A mapping of a few fields, for what follows.
SMALL = {"template": "301001 012101 010004 011002 101000 031001 020011 020012",
         "section1": dict(zip(("originating_centre", "originating_sub_centre", "update_sequence_number", "data_category",
                               "international_data_sub_category", "local_data_sub_category", "master_table_version",
                               "local_table_version"), (98, 0, 0, 0, 2, 0, 46, 0))),
         "time": "t", "fields": {"001002": "n", "012101": {"column": "a", "unit": "°C"}, "031001": 0}}


def small(folder, cells, fields=None, mapping=None, words=(), out_name="a"):
    """What becomes of a CSV text under the mapping, with other fields and words of it: the status, what was said, and the listing."""
    made_of = {**SMALL, **(mapping or {}), "fields": {**SMALL["fields"], **(fields or {})}}
    made_of = {key: value for key, value in made_of.items() if value is not None}
    made_of["fields"] = {key: value for key, value in made_of["fields"].items() if value is not None}
    name = write(f"{folder}/m.json", json.dumps(made_of))
    path = write(f"{folder}/{out_name}.csv", cells.encode() if isinstance(cells, str) else cells)
    status, error, out = made(path, *words, name, path)
    error = error.replace(f"bufr-from-csv: {path}: ", "").replace("bufr-from-csv: ", "")
    return status, error, listing(out) if status == 0 else os.path.exists(out)


def body(shown):
    """The values of a listing that are not missing."""
    return [line for line in shown.splitlines() if re.match(r"\d{6} (?!missing)", line)]


def test_rounding(folder):
    """A half goes to the even digit, and all that were rounded are counted."""
    cells = "t,n,a,p,w\n2024-01-15T12:00Z,1,4.1,1010.25,17\n2024-01-15T12:00Z,2,4.115,1010.35,18\n2024-01-15T12:00Z,3,4.125,1010.2,-0.01\n"
    fields = {"010004": {"column": "p", "unit": "hPa"}, "011002": {"column": "w", "unit": "km/h"}}
    status, error, out = small(folder, cells, fields)
    assert (status, out) == (1, False) and error.splitlines()[-1] == "6 cells do not fit: nothing is written; --round rounds 5 of them"
    status, error, out = small(folder, cells, fields, words=["--round"])
    # 277.265, 277.275: the digit before the half; -0.01 km/h is 0.0 m/s
    assert (status, error) == (0, "rounded 6 values\n")
    assert body(out) == ["001002 1", "012101 277.25", "010004 101020", "011002 4.7", "031001 0", "001002 2", "012101 277.26",
                         "010004 101040", "011002 5.0", "031001 0", "001002 3", "012101 277.28", "010004 101020", "011002 0.0", "031001 0"]
    status, error, out = small(folder, cells.replace("1010.25", "1010.2").replace("1010.35", "1010.4").replace(",4.1", ",4").replace(
        "25,1010", ",1010").replace("15,1010", ",1010"), {**fields, "011002": {"column": "w", "unit": "km/h", "round": True}})
    assert (status, error) == (0, "rounded 2 values\n")


@pytest.mark.parametrize("fields, mapping, said", [
    ({"012102": "a"}, None, "012102: the template has no such field: is it 012101"), ({"012101#2": "a"}, None, "012101#2: the template has 1 such field"),
    ({"12101": "a"}, None, "12101 is no descriptor of six digits, nor one with # and a number, such as 007032#2"),
    ({"010004": "pp"}, None, "010004: a.csv has no column pp: is it p"), ({"010004": "twice"}, None, "010004: a.csv has 2 columns twice"),
    ({"010004": {"column": "p", "unit": "mmHg"}}, None, "010004 PRESSURE [Pa]: no unit mmHg is converted to it; these are: Pa, hPa, mbar, kPa, bar"),
    ({"010004": {"colum": "p"}}, None, "010004: colum is no word of a field: is it column"),
    ({"010004": {"column": "p", "constant": 3}}, None, "010004 has column and constant: one of them goes"),
    ({"010004": 15}, None, "010004 PRESSURE [Pa]: wanted a number in steps of 10, without a point, from 0 to 163820, or missing; found 15: it is no "
     "multiple of 10"),
    ({"010004": True}, None, "010004: true is no column and no constant"), ({"010004": {"column": 3}}, None, "010004: a column is named by its name in "
     "quotes, not by 3"),
    ({"010004": {"column": "p", "factor": "x"}}, None, "010004: factor is x, and no number"),
    ({"010004": {"column": "p", "round": "yes"}}, None, "010004: round is true or false, not yes"),
    ({"010004": {"column": "p", "decimal": ";"}}, None, "010004: decimal is a point or a comma, not ;"),
    ({"004001": {"time": "years"}}, None, "004001: time is one of year, month, day, hour, minute, second, not years"),
    ({"001001": {"station": "block"}}, None, "001001: the mapping has no station"),
    (None, {"station": "n"}, 'station: no field has a part of it: write {"station": "block"} for 001001, {"station": "number"} for 001002'),
    ({"031001": None}, None, "031001 DELAYED DESCRIPTOR REPLICATION FACTOR [Numeric]: wanted a count without a point, from 0 to 255, never missing; "
     "found nothing"),
    ({"031001": "p"}, None, "031001: a count from a column has \"greatest\": the greatest count of a row, below 256"),
    ({"031001": {"column": "p", "greatest": 256}}, None, "031001: a count from a column has \"greatest\": the greatest count of a row, below 256"),
    ({"031001": 1.5}, None, "031001: the count 1.5 is no count below 256"),
    ({"031001": {"constant": [1]}}, None, "031001: the constant [1] is no number and no text"),
    (None, {"tme": "t"}, "tme is no word of a mapping: is it time"), (None, {"time": None}, None), (None, {"time": {"column": None}}, "time has no "
     "column: write its name"), (None, {"time": {"col": "t"}}, "time has a column, or columns, and a format"),
    (None, {"time": "tt"}, "time: a.csv has no column tt: is it t"), (None, {"missing": "NA"}, 'missing is "NA", and not a list'),
    (None, {"observed": 1}, "observed is 1, and not a bool"),
    (None, {"section1": {**SMALL["section1"], "originating_centre": None}}, "section1 originating_centre: wanted a number from 0 to 65535, or a column; "
     "found nothing"),
    (None, {"section1": {**SMALL["section1"], "data_category": 256}}, "section1 data_category: wanted a number from 0 to 255, or a column; found 256"),
    (None, {"section1": {**SMALL["section1"], "centre": 1}}, "section1: centre is no number of it: is it originating_centre")])
def test_faults_of_the_mapping(fields, mapping, said, folder):
    """They are told with the cells that do not fit."""
    status, error, out = small(folder, "t,n,a,p,twice,twice\n2024-01-15T12:00Z,1,4.123,1010,1,2\n", fields, mapping)
    lines = error.splitlines()
    if said is None:
        assert status == 1 and lines[0] == "row 2, column a: " + TEMPERATURE + "; found 4.123 °C: 277.273 K, which has 3 digits after the point"
        assert out is False
        return
    assert (status, out) == (2, False) and f"{folder}/m.json: {said}".replace("a.csv", f"{folder}/a.csv") in lines, lines
    assert "row 2, column a: " + TEMPERATURE + "; found 4.123 °C: 277.273 K, which has 3 digits after the point" in lines
    assert lines[-1].startswith("1 fault of the mapping, 1 cell does not fit: nothing is written") or len(lines) > 3


@pytest.mark.parametrize("octets, said", [
    (b"", "is no JSON: Expecting value"), (b"[]", "has no object"), (b"{", "is no JSON"), (b'{"a": 1, "a": 2}', ": a is there twice"),
    (b"\xff\xfe", "is not in UTF-8"), (b'{"template": []}', ": template has no descriptors, such as \"307080\""),
    (b'{"template": "30708"}', ": template: 30708 is no descriptor: six digits FXXYYY"),
    (b'{"template": "307250", "section1": {"master_table_version": 46}}', ": template: X2 UnknownSequence 307250"),
    (b'{"template": "307080"}', ": section1 has no number master_table_version: write the version of the tables, such as 46"),
    (b'{"template": "307080", "section1": {"originating_centre": 78, "data_category": 0, "update_sequence_number": 300}}',
     "write the version of the tables, such as 46; and write the numbers originating_sub_centre, update_sequence_number, "
     "international_data_sub_category, local_data_sub_category, local_table_version\n"),
    (b'{"template": "307080", "section1": {"master_table_version": 47}}', "no table here reads version 47"),
    (b"[" * 100000, "is no JSON"), (b'{"template": "120000 031002' + b" 001001" * 20 + b'", "section1": '
                                    b'{"master_table_version": 46}, "fields": {"031002": 65535}}', ": template: a row has more than 1,000,000 fields"), (b'{"template": "307080", "section1": {"master_table_version": 46}, "delimiter": "ab"}',
                                    ": decimal is a point or a comma, and delimiter one character"),
    (b'{"template": "307080", "section1": {"master_table_version": 46}, "names_row": 2, "first_row": 2}',
     ": names_row counts from 1, and first_row is below it")])
def test_a_mapping_that_is_none(octets, said, folder):
    name = write(f"{folder}/m.json", octets)
    status, error, out = made(f"{folder}/a", name, SYNOP)
    assert status == 2 and error.startswith("bufr-from-csv: ") and error.count("\n") == 1 and said in error and not os.path.exists(out)


@pytest.mark.parametrize("octets, status, said", [
    (b"", 2, "has no row 1 with the names of the columns"), (b"t,n,a\n", 2, "has no row of observations"), (b"t,n,a\n\n , ,\n", 2, "has no row of "
     "observations"), (b"t,n,a\n2024-01-15T12:00Z,1\n", 1, "row 2: it has 2 cells, and the header 3"),
    (b"t,n,a\n2024-01-15T12:00Z,1,2,3\n", 1, "row 2: it has 4 cells, and the header 3"),
    (b't,n,a\n"2024-01-15T12:00Z,1,2\n', 2, "row 2: unexpected end of data"), (b't,n,a\n"2024"x,1,2\n', 2, "row 2: "),
    (b"t,n,a\n2024-01-15T12:00Z,1,\xff\n", 1, "it is no number"), (b"t,n,a\n2024-01-15T12:00Z,1,1e99999999\n", 1, "it is no number"),
    (b"t,n,a\n2024-01-15T12:00Z,1,1e99\n", 1, "which is too great"), (b"t,n,a\n2024-01-15T12:00Z,1," + b"9" * 100000 + b"\n", 1, "it is no number"),
    (b"t,n,a\n2024-01-15T12:00Z,1,NaN\n", 1, "it is no number"), (b"t,n,a\n2024-01-15T12:00Z,1,\xd9\xa1\n", 1, "it is no number"),
    (b"t,n,a\n2024-01-15T12:00Z,1," + b"9" * 200000 + b"\n", 2, "row 2: field larger than field limit"),
    (b"\x1f\x8b\x08\0\0\r\n", 2, "")], ids=range(15))
def test_a_csv_that_is_none(octets, status, said, folder):
    got, error, out = small(folder, octets)
    assert (got, out) == (status, False) and said in error and len(error) < 500000


def test_files_that_are_none(folder):
    for words, said in (([f"{folder}/none.json", SYNOP], f"cannot open {folder}/none.json: No such file or directory"),
                        ([f"{FOLDER}/synop.json", f"{folder}/none.csv"], f"cannot open {folder}/none.csv: No such file or directory"),
                        ([f"{FOLDER}/synop.json", folder], f"cannot open {folder}: Is a directory"),
                        ([folder, SYNOP], f"cannot open {folder}: Is a directory"),
                        (["-o", f"{folder}/none/a", f"{FOLDER}/synop.json", SYNOP], f"cannot write {folder}/none/a: No such file or directory"),
                        (["--tables", "47", f"{FOLDER}/synop.json", SYNOP], "no table here reads version 47")):
        assert inside("from-csv", *words) == (2, "", f"bufr-from-csv: {said}\n")
    assert inside("from-csv")[0] == 2 and inside("from-csv", "--new", f"{folder}/m.json")[0] == 2
    assert inside("from-csv", "--new", f"{folder}/m.json", "--template", "30708")[0] == 2 and not os.path.exists(f"{folder}/m.json")


def test_how_a_csv_may_be_written(folder):
    """With a mark at its head, CRLF, quotes, other delimiters, blank lines, from standard input, and with rows before it."""
    wanted = ["001002 7", "012101 277.25", "031001 0"]
    for cells in ("t,n,a\n2024-01-15T12:00Z,7,4.1\n", "\ufefft,n,a\r\n2024-01-15T12:00Z,7,4.1\r\n", 't,"n",a\n"2024-01-15T12:00Z",7," 4.10 "\n\n',
                  "t;n;a\n2024-01-15T12:00Z;7;4.1", "t\tn\ta\n2024-01-15T12:00Z\t7\t+41e-1\n", " t , n , a \n2024-01-15T12:00Z , 7 , 4.1\n",
                  't,n,a,"more\nlines"\n2024-01-15T12:00Z,7,4.1,"x\ny"\n'):
        status, error, out = small(folder, cells)
        assert (status, body(out)) == (0, wanted), cells
        assert error == (f"{folder}/m.json: columns in no field: more lines\n" if "more" in cells else "")
    octets = read(f"{folder}/a.csv.bufr")
    for words in (["-"], []):
        out = f"{folder}/b"
        assert command("from-csv", "-o", out, f"{folder}/m.json", *words, given=b"t,n,a\n2024-01-15T12:00Z,7,4.1\n") == (0, "", "")
        assert read(out) == octets
    assert command("from-csv", f"{folder}/m.json", given=b"t,n,a\n2024-01-15T12:00Z,7,4.1\n")[1].encode("latin-1") == octets
    for mapping, cells in (({"names_row": 2, "first_row": 4}, "logger 7\nt,n,a\ntime,number,°C\n2024-01-15T12:00Z,7,4.1\n"),
                           ({"delimiter": "|"}, "t|n|a\n2024-01-15T12:00Z|7|4.1\n"),
                           ({"decimal": ","}, "t;n;a\n2024-01-15T12:00Z;7;4,1\n"),
                           ({"missing": ["///", -999]}, "t,n,a\n2024-01-15T12:00Z,7,4.1\n2024-01-15T12:00Z,///,-999\n")):
        status, error, out = small(folder, cells, mapping=mapping)
        assert (status, error, body(out)[:3]) == (0, "", wanted) and len(body(out)) == (4 if "missing" in mapping else 3)


def test_a_csv_as_excel_writes_it(folder):
    """In Windows-1252, also from standard input, if it is not UTF-8; and with a sign of the euro."""
    fields = {"001015": "né", "012101": {"column": "°C", "unit": "°C"}}
    wanted = ["001002 7", "012101 277.25", "031001 0", '001015 "AB' + " " * 18 + '"']
    for encoding in ("utf-8", "utf-8-sig", "cp1252"):
        cells = "t;n;°C;né;€\r\n2024-01-15T12:00Z;7;4.1;AB;x\r\n".encode(encoding)
        status, error, out = small(folder, cells, fields, {"template": f"{SMALL['template']} 001015"})
        assert (status, body(out)) == (0, wanted) and error == f"{folder}/m.json: columns in no field: €\n"
        assert command("from-csv", "--quiet", "-o", f"{folder}/b", f"{folder}/m.json", given=cells) == (0, "", "")
        assert body(listing(f"{folder}/b")) == wanted


@pytest.mark.parametrize("word, block, number", [("06610", 6, 610), ("6610", 6, 610), ("10384.0", 10, 384), ("0-20000-0-06610", 6, 610),
                                                 ("610", None, None), ("106610", None, None), ("0-20000-1-06610", None, None)])
def test_numbers_of_stations(word, block, number, folder):
    """As bufr-report takes them: a number that a table made shorter, too."""
    fields = {"001001": {"station": "block"}, "001002": {"station": "number"}}
    status, error, out = small(folder, f"t,s,a\n2024-01-15T12:00Z,{word},4.1\n", fields, {"station": "s"})
    if block is None:
        assert (status, out) == (1, False) and error.startswith(f"row 2, column s: wanted a number IIiii, as 06610 or 6610; found {word}\n")
    else:
        assert (status, error, body(out)[:2]) == (0, "", [f"001001 {block}", f"001002 {number}"])


def test_a_field_has_its_own_decimal(folder):
    """4,1 beside 1010.2, whichever of the two the mapping names."""
    cells = "t;n;a;p\n2024-01-15T12:00Z;7;4,1;1010.2\n"
    comma, point = {"column": "a", "unit": "°C", "decimal": ","}, {"column": "p", "unit": "hPa", "decimal": "."}
    without = [{key: value for key, value in each.items() if key != "decimal"} for each in (comma, point)]
    for fields, mapping in (({"012101": comma, "010004": without[1]}, {}), ({"012101": without[0], "010004": point}, {"decimal": ","})):
        status, error, out = small(folder, cells, fields, mapping)
        assert (status, error, body(out)) == (0, "", ["001002 7", "012101 277.25", "010004 101020", "031001 0"])
    pressure = "row 2, column p: 010004 PRESSURE [Pa]: wanted a number in steps of 10, without a point, from 0 to 163820, or missing; "
    status, error, _ = small(folder, cells, {"012101": comma, "010004": without[1]}, {"decimal": ","})
    assert (status, error.splitlines()[0]) == (1, pressure + 'found 1010.2 hPa: it has a point, and "decimal" is ","')
    status, error, _ = small(folder, cells.replace("1010.2", "1.010,2"), {"010004": without[1]}, {"decimal": ","})
    assert (status, error.splitlines()[0]) == (1, pressure + "found 1.010,2 hPa: it is no number")
    status, error, _ = small(folder, cells, {"010004": point})
    assert (status, error.splitlines()[0]) == (
        1, f'row 2, column a: {TEMPERATURE}; found 4,1 °C: it has a comma: write "decimal": "," in the mapping')


@pytest.mark.parametrize("word, form, time", [
    ("2024-01-15T12:00Z", None, "2024 1 15 12 0 0"), ("2024-01-15 12:34:56", None, "2024 1 15 12 34 56"),
    ("2024-01-15T12:34:56.000Z", None, "2024 1 15 12 34 56"), ("2024-01-01T00:30+01:00", None, "2023 12 31 23 30 0"),
    ("2024-01-15 23:30-0130", None, "2024 1 16 1 0 0"), ("2024-02-29T00:00", None, "2024 2 29 0 0 0"), ("2023-02-29T00:00", None, None),
    ("2024-01-15", None, None), ("2024-01-15T24:00", None, None), ("2024-01-15T12:00:60", None, None), ("2024-01-15T12:00:00.5Z", None, None),
    ("15/01/24 1205", "%d/%m/%y %H%M", "2024 1 15 12 5 0"), ("2024-01-15T12:00Z", "%d/%m/%y", None), ("2024015", "%Y%j", "2024 1 15 0 0 0"),
    ("1705320000", "%s", None), ("2024-01-15 12:00 +0200", "%Y-%m-%d %H:%M %z", "2024 1 15 10 0 0"), ("0001-01-01T00:00+01:00", None, None)])
def test_times(word, form, time, folder):
    status, error, out = small(folder, f"t,n,a\n{word},1,4.1\n", mapping={"time": {"column": "t", "format": form}})
    if time is None:
        assert (status, out) == (1, False) and error.startswith(f"row 2, column t: wanted a time as {form or '2024-01-15T12:00:00Z'}; found {word}\n")
    else:
        assert (status, error) == (0, "") and f"\ntime {time}\n" in out


def test_the_time_of_fields_and_section_1_of_columns(folder):
    """Without a time in the mapping section 1 has that of the fields 004001 to 004006, and of two the first."""
    fields = {"004001": "y", "004002": "mo", "004003": "d", "004004": "h", "004005": 30, "004001#2": 1999}
    mapping = {"time": None, "template": "301011 301012 012101 004001", "section1": {**SMALL["section1"], "originating_centre": "c"}}
    fields.update({"001002": None, "031001": None})
    cells = "y,mo,d,h,a,c\n2024,1,15,12,4.1,98\n2024,2,29,6,4.1,78\n"
    status, error, out = small(folder, cells, fields, mapping)
    assert (status, error) == (0, "")
    assert re.findall("^(?:section1|time) .*", out, re.M) == [
        "section1 98 0 0 0 2 0 46 0", "time 2024 1 15 12 30 0", "section1 78 0 0 0 2 0 46 0", "time 2024 2 29 6 30 0"]
    status, error, out = small(folder, "y,mo,d,h,a,c\n2024,1,15,,4.1,98\n2024,2,29,31,4.1,78\n2024,2,29,6,4.1,65536\n2024,2,29,6,4.1,\n",
                               fields, mapping, out_name="b")
    assert (status, out) == (1, False) and error.splitlines() == [
        "row 2: wanted a time in the fields 004001 to 004004, or in the mapping's time; found none",
        "row 3, column h: 004004 HOUR [h]: wanted a number without a point, from 0 to 30, or missing; found 31: it is too great",
        "row 4, column c: section1 originating_centre: wanted a number from 0 to 65535; found 65536",
        "row 5, column c: section1 originating_centre: wanted a number from 0 to 65535; found nothing",
        "4 cells do not fit: nothing is written"]


@pytest.mark.parametrize("count, wanted", [
    ("0", ["031001 0", "008002 9"]), ("1", ["031001 1", "008002 1", "020011 2", "031000 1", "020012 3", "008002 9"]),
    ("2", ["031001 2", "008002 1", "020011 2", "031000 1", "020012 3", "008002 4", "020011 5", "031000 0", "008002 9"])])
def test_replications(count, wanted, folder):
    """Numbers count in a row that has the greatest count. A field after the replication has one number in all rows."""
    mapping = {"template": "105000 031001 008002 020011 101000 031000 020012 008002"}
    fields = {"001002": None, "012101": None, "031001": {"column": "n", "greatest": 2}, "008002": 1, "020011": 2, "031000": 1, "020012": 3,
              "008002#2": 4, "020011#2": 5, "031000#2": 0, "008002#3": 9}
    status, error, out = small(folder, f"t,n\n2024-01-15T12:00Z,{count}\n", fields, mapping)
    assert (status, error, body(out)) == (0, "", wanted)


def test_subsets(folder):
    """Rows that follow each other share a message if their time and section 1 agree, and else none does."""
    cells = "t,n,a,c\n" + "".join(f"2024-01-15T{hour}:00Z,{n},4.1,{centre}\n" for n, (hour, centre) in enumerate(
        [(12, 1), (12, 1), (12, 2), (13, 2), (13, 2), (12, 1)]))
    mapping = {"section1": {**SMALL["section1"], "originating_centre": "c"}}
    status, error, out = small(folder, cells, mapping=mapping)
    assert (status, error, out.count("message\n"), out.count("subset\n")) == (0, "", 6, 6)
    status, error, out = small(folder, cells, mapping=mapping, words=["--subsets"])
    assert (status, error) == (0, "")
    assert [re.findall(r"^001002 (\d+)", part, re.M) for part in out.split("message\n")[1:]] == [["0", "1"], ["2"], ["3", "4"], ["5"]]


def test_toml(folder):
    """TOML says the same as JSON, where Python reads it."""
    lines = ['template = "301001 012101"', 'time = "t"', "[section1]", *(f"{key} = {value}" for key, value in SMALL["section1"].items()),
             "[fields]", '001002 = "n"', '"001001" = 10', '012101 = {column = "a", factor = 0.1, offset = 0.05, unit = "°C"}']
    name = write(f"{folder}/m.toml", "\n".join(lines).encode())
    cells = write(f"{folder}/a.csv", b"t,n,a\n2024-01-15T12:00Z,384,42\n")
    status, error, out = made(f"{folder}/a", name, cells)
    if sys.version_info < (3, 11):
        assert (status, error) == (2, f"bufr-from-csv: {name}: TOML needs Python 3.11: write the mapping in JSON\n")
        return
    # 0.1 * 42 + 0.05 degrees Celsius
    assert (status, error, body(listing(out))) == (0, "", ["001001 10", "001002 384", "012101 277.40"])
    write(name, b"template = ")
    assert made(f"{folder}/a", name, cells)[1].startswith(f"bufr-from-csv: {name} is no TOML: ")
    assert inside("from-csv", "--new", f"{folder}/new.toml", "--template", "012101") == (
        2, "", f"bufr-from-csv: {folder}/new.toml: a new mapping is in JSON\n")


# A unit of a column, the unit of a field, a cell, and the value: by the definitions of the units.
CONVERSIONS = [
    ("°C", "K", "-0.1", "273.05"), ("°F", "K", "32", "273.15"), ("°F", "K", "-40", "233.15"), ("hPa", "Pa", "1013.25", "101325"),
    ("mbar", "Pa", "1", "100"), ("kPa", "Pa", "101.3", "101300"), ("bar", "Pa", "1", "100000"), ("km/h", "m/s", "36", "10"),
    ("kt", "m/s", "900", "463"), ("mph", "m/s", "100", "44.704"), ("ft/s", "m/s", "10", "3.048"), ("cm/s", "m/s", "250", "2.5"),
    ("km", "m", "1.5", "1500"), ("dm", "m", "7", "0.7"), ("cm", "m", "7", "0.07"), ("mm", "m", "7", "0.007"), ("ft", "m", "1000", "304.8"),
    ("in", "m", "100", "2.54"), ("mi", "m", "1", "1609.344"), ("NM", "m", "1", "1852"), ("mm", "kg m-2", "1.3", "1.3"),
    ("cm", "kg m-2", "0.13", "1.3"), ("in", "kg m-2", "1", "25.4"), ("l m-2", "kg m-2", "2", "2"), ("1", "%", "0.81", "81"),
    ("okta", "%", "6", "75"), ("tenth", "%", "3", "30"), ("min", "h", "90", "1.5"), ("s", "h", "1800", "0.5"), ("d", "h", "2", "48"),
    ("h", "min", "0.5", "30"), ("s", "min", "90", "1.5"), ("d", "min", "1", "1440"), ("h", "s", "2", "7200"), ("min", "s", "2", "120"),
    ("d", "s", "1", "86400"), ("h", "d", "36", "1.5"), ("kJ m-2", "J m-2", "2", "2000"), ("MJ m-2", "J m-2", "1.5", "1500000"),
    ("J cm-2", "J m-2", "3", "30000"), ("Wh m-2", "J m-2", "1", "3600"), ("kWh m-2", "J m-2", "1", "3600000"), ("kW m-2", "W m-2", "2", "2000"),
    ("m", "gpm", "5", "5"), ("dam", "gpm", "552", "5520"), ("gpdam", "gpm", "552", "5520"), ("g m-3", "kg m-3", "5", "0.005"),
    ("g/kg", "kg/kg", "4", "0.004")]


def test_units():
    from bufr import units
    from bufr.tables import Field
    assert {(one, other) for one, other, *_ in CONVERSIONS} == {(one, other) for other in units.UNITS for one in units.UNITS[other]}
    for unit, to, cell, value in CONVERSIONS:
        factor, offset = units.conversion(unit, Field("012101", "TEMPERATURE", to, 0, 0, False))
        assert Decimal(cell) * factor.numerator / factor.denominator + Decimal(offset.numerator) / offset.denominator == Decimal(value), unit
    for one, other in (("C", "°C"), ("knots", "kt"), ("KM/H", "km/h"), ("W/m²", "W m-2"), ("mb", "mbar"), ("J m⁻²", "J m-2"), ("m s-1", "m/s")):
        assert units.plain(one) == other or units.plain(one).lower() == other
    # a difference of temperatures has no offset
    change = Field("012049", "TEMPERATURE CHANGE OVER SPECIFIED PERIOD", "K", 0, 6, False)
    assert units.conversion("°C", change) == (1, 0) and units.conversion("hPa", change) is None


def test_factors(folder):
    """Factor and offset come before the unit, and the least and the greatest value before them: 2 * 15.1 + 1.8 is 32 degrees
    Fahrenheit, the melting point."""
    what = {"column": "a", "unit": "°F", "factor": 2, "offset": 1.8, "least": 15.1, "greatest": 15.1}
    status, error, out = small(folder, "t,n,a\n2024-01-15T12:00Z,1,15.1\n", {"012101": what})
    assert (status, error, body(out)) == (0, "", ["001002 1", "012101 273.15", "031001 0"])


def test_a_new_mapping(folder):
    """It has a line for each field, with what it wants, and its columns by descriptor or name; the rest is told when it is filled in."""
    cells = write(f"{folder}/a.csv", b"time,wmo block number,001002,Pressure,Wind Speed,humidity\n2024-01-15T12:00Z,10,384,101020,4.8,81\n")
    name = f"{folder}/m.json"
    assert inside("from-csv", "--new", name, "--template", "301150", "307080", "--counts", "1", cells) == (
        0, f"{name}: columns by the names of elements: wmo block number (001001), Pressure (010004), Wind Speed (011002)\n"
        f"{name}: columns in no field yet: humidity\n", "")
    assert inside("from-csv", "--new", name, "--template", "012101")[::2] == (2, f"bufr-from-csv: cannot write {name}: File exists\n")
    mapping = json.loads(read(name))
    assert (mapping["template"], mapping["time"]["column"], len(mapping["fields"])) == ("301150 307080", "time", 115)
    assert (mapping["wigos"], mapping["station"]) == (None, None)
    assert mapping["fields"]["012101"] == {"column": None, "unit": "K", "name": "TEMPERATURE/AIR TEMPERATURE",
                                           "wants": "a number with 2 digits after the point; the field has room for 0.00 to 655.34 K, "
                                           "or missing"}
    assert mapping["fields"]["031001"]["constant"] == 1 and mapping["fields"]["031001#2"]["constant"] == 0
    assert mapping["fields"]["004001"] == {"time": "year", "name": "YEAR",
                                           "wants": "a number without a point; the field has room for 0 to 4094 a, or missing"}
    assert mapping["fields"]["002001"]["wants"] == "a number without a point; the field has room for 0 to 2, or missing"
    assert mapping["fields"]["031001"]["wants"] == "a count without a point; the field has room for 0 to 255"
    assert mapping["fields"]["001015"]["wants"] == "a text of at most 20 characters, or missing"
    status, error, out = made(f"{folder}/a", name, cells)
    assert (status, os.path.exists(out), error) == (
        2, False, f"bufr-from-csv: {name}: section1 originating_centre: wanted a number from 0 to 65535, or a column; found nothing\n"
        "bufr-from-csv: 1 fault of the mapping: nothing is written\n")
    write(name, text(name).replace('"originating_centre": null', '"originating_centre": 78').replace(
        '"013003": {"column": null', '"013003": {"column": "humidity"'))
    status, error, out = made(f"{folder}/a", name, cells)
    assert (status, error) == (0, "")
    assert body(listing(out)) == ["001001 10", "001002 384", "004001 2024", "004002 1", "004003 15", "004004 12", "004005 0", "010004 101020",
                                  "013003 81", "031001 1", "031001 0", "011002 4.8"]
    assert inside("from-csv", "--new", f"{folder}/n.json", "--template", "307080", "--counts", "1,2,3") == (
        2, "", "bufr-from-csv: 2 counts are asked for, 3 are given\n")


def test_a_new_mapping_has_the_station(folder):
    """With the centre and columns that are called as fields nothing has to be filled in; a field has a later column by its number."""
    cells = write(f"{folder}/a.csv", b"time,Station,012101,007032#2\n2024-01-15T12:00Z,06610,277.25,1.5\n")
    name = f"{folder}/m.json"
    assert inside("from-csv", "--new", name, "--centre", "78", "--template", "307080", cells) == (0, "", "")
    mapping = json.loads(read(name))
    assert (mapping["station"], mapping["section1"]["originating_centre"]) == ("Station", 78)
    assert [mapping["fields"][key]["station"] for key in ("001001", "001002")] == ["block", "number"]
    status, error, out = made(f"{folder}/a", name, cells)
    assert (status, error) == (0, "") and "\nsection1 78 0 0 0 255 255 46 0\n" in listing(out)
    assert body(listing(out)) == ["001001 6", "001002 610", "004001 2024", "004002 1", "004003 15", "004004 12", "004005 0", "012101 277.25",
                                  "007032 1.50", "031001 0", "031001 0"]
    # by another column only its name is to be filled in, and nothing else
    cells = write(f"{folder}/a.csv", b"time;stn;temp\n2024-01-15T12:00Z;6610;4,1\n")
    name = f"{folder}/other.json"
    assert inside("from-csv", "--new", name, "--centre", "78", "--template", "307080", cells) == (
        0, f"{name}: columns in no field yet: stn, temp\n", "")
    mapping = json.loads(read(name))
    assert (mapping["station"], mapping["decimal"]) == (None, None)
    assert [mapping["fields"][key]["station"] for key in ("001001", "001002")] == ["block", "number"]
    here = ["004001 2024", "004002 1", "004003 15", "004004 12", "004005 0"]
    status, error, out = made(f"{folder}/a", name, cells)
    assert (status, error) == (0, f"bufr-from-csv: {name}: columns in no field: stn, temp\n")
    assert body(listing(out)) == [*here, "031001 0", "031001 0"]
    write(name, text(name).replace('"station": null', '"station": "stn"').replace('"decimal": null', '"decimal": ","').replace(
        '"012101": {"column": null, "unit": "K"', '"012101": {"column": "temp", "unit": "degC"'))
    status, error, out = made(f"{folder}/a", name, cells)
    assert (status, error, body(listing(out))) == (0, "", ["001001 6", "001002 610", *here, "012101 277.25", "031001 0", "031001 0"])
    # so of a WIGOS identifier, but not of a template with a part of it
    for template, parts in (("301150", ["series", "issuer", "issue", "local"]), ("001125 001126 001002", [None, None])):
        name = f"{folder}/wigos{template[:6]}.json"
        assert inside("from-csv", "--new", name, "--template", *template.split())[0] == 0
        assert [each.get("wigos") for key, each in json.loads(read(name))["fields"].items() if key.startswith("00112")] == parts
    assert "station" not in json.loads(read(name))["fields"]["001002"]
    # not if its two numbers have columns, nor if the template has none
    for number, (header, template) in enumerate((("station,001001", "307080"), ("station,001002 WMO station number", "307080"),
                                                 ("station", "301011 012101"))):
        name, cells = f"{folder}/{number}.json", write(f"{folder}/b.csv", f"time,{header}\n".encode())
        assert inside("from-csv", "--new", name, "--template", template, cells)[:2][1].endswith("columns in no field yet: station\n")
        assert json.loads(read(name)).get("station") is None
    assert inside("from-csv", "--centre", "78", name)[0] == 2


def test_columns_that_no_field_has_are_told(folder):
    """After the messages are made, on standard error; not of columns of the time, of section 1 and of parts, nor with --quiet."""
    cells = "t,n,a,c,,station,x y\n2024-01-15T12:00Z,1,4.1,98,,10384,7\n"
    mapping = {"section1": {**SMALL["section1"], "originating_centre": "c"}}
    status, error, out = small(folder, cells, mapping=mapping)
    assert (status, error) == (0, f"{folder}/m.json: columns in no field: station, x y\n") and body(out)[0] == "001002 1"
    assert small(folder, cells, mapping=mapping, words=["--quiet"])[:2] == (0, "")
    fields = {"001001": {"station": "block"}, "001002": {"station": "number"}}
    status, error, out = small(folder, cells, fields, {**mapping, "station": "station"})
    assert (status, error) == (0, f"{folder}/m.json: columns in no field: n, x y\n") and body(out)[:2] == ["001001 10", "001002 384"]


def test_a_mapping_for_each_sequence(folder):
    """A new mapping of any template gives messages, whose fields are missing but for counts and single bits."""
    cells = write(f"{folder}/a.csv", b"time\n2024-01-15T12:00Z\n")
    for template in ("307096", "308009", "309052", "311001", "315009", "301150 307091"):
        name = f"{folder}/{template}.json"
        status, out, error = inside("from-csv", "--new", name, "--template", template, cells)
        assert (status, out, error) == (0, "", "")
        write(name, text(name).replace('"originating_centre": null', '"originating_centre": 78'))
        status, error, out = made(f"{folder}/a", name, cells)
        assert (status, error) == (0, "") and f"descriptors {template}\n" in listing(out)
