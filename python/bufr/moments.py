"""Times of the fields 004001 to 004006: of one row, and of columns with many."""
from __future__ import annotations

import datetime
from typing import Any, Optional, Sequence, Tuple

TIME = ("004001", "004002", "004003", "004004", "004005", "004006")
# Those of TIME that count as 0 if no field has them.
PARTS = TIME[4:]
# The months before 1970, and the most seconds from 1970 on that a DataFrame has as a time.
MONTHS, SECONDS = 1970 * 12, 9_223_372_036


def moment_of(parts: Sequence[Any], is_there: Sequence[bool]) -> Optional[datetime.datetime]:
    """Return the time of the fields of TIME. A minute or a second that no field has is 0; one that a field has as missing is not
    known."""
    if None in parts[:4] or any(part is None and each for part, each in zip(parts[-len(PARTS):], is_there)) or \
            not all(isinstance(part, (int, float)) for part in parts if part is not None):
        return None
    try:
        return datetime.datetime(*(int(part or 0) for part in parts))  # type: ignore[arg-type]
    except (ValueError, OverflowError):
        return None


def moments_of(numpy: Any, parts: Sequence[Any], is_there: Sequence[Any]) -> Any:
    """Return the times of columns of the fields of TIME as `moment_of` returns each; None is a column that no message has."""
    whole, gone = zip(*(numbers_of(numpy, part) for part in parts))
    year, month, day, hour, minute, second = whole
    is_known = ~(gone[0] | gone[1] | gone[2] | gone[3] | gone[4] & is_there[0] | gone[5] & is_there[1])
    for part, least, most in ((year, 1, 9999), (month, 1, 12), (hour, 0, 23), (minute, 0, 59), (second, 0, 59)):
        is_known = is_known & (least <= part) & (part <= most)
    months = numpy.where(is_known, 12 * year + month - 1, MONTHS)
    first = months.min()
    days = numpy.arange(first - MONTHS, months.max() + 2 - MONTHS).astype("datetime64[M]").astype("datetime64[D]").astype("int64")
    began, ended = days[months - first], days[months - first + 1]
    seconds = (((began + day - 1) * 24 + hour) * 60 + minute) * 60 + second
    is_known = is_known & (1 <= day) & (day <= ended - began) & (abs(seconds) <= SECONDS)
    return numpy.where(is_known, seconds * 1_000_000_000, numpy.datetime64("NaT").astype("int64")).view("datetime64[ns]")


def numbers_of(numpy: Any, part: Any) -> Tuple[Any, Any]:
    """Return the whole numbers of a column, and where it has none."""
    if part is None:
        return numpy.zeros(1, "int64"), numpy.ones(1, "bool")
    if part.dtype.kind != "f":
        return part, numpy.zeros(1, "bool")
    is_gone = numpy.isnan(part)
    return numpy.where(is_gone, 0, part).astype("int64"), is_gone
