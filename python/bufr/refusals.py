"""What the refusals of messages mean, by their codes, as docs/MANUAL.md says it."""

LENGTHS = "the lengths of the sections don't add up"
NOT_WHOLE = "not one whole message"
MALFORMED = "the descriptors are malformed, or a factor has no usable row"
BEYOND = "the template is beyond the limits"
COLUMNS = "columns of compressed data are malformed"
MEANS = {
    "M1": NOT_WHOLE, "M2": "the edition is neither 3 nor 4", "M3": NOT_WHOLE, "M4": NOT_WHOLE, "M5": LENGTHS,
    "M6": "the master table is N, not 0", "M7": LENGTHS, "M8": LENGTHS, "M9": LENGTHS,
    "X1": "Table B has no such row", "X2": "Table D has no such sequence", "X3": "an operator that bufr does not cover",
    "X4": MALFORMED, "X5": MALFORMED, "X6": MALFORMED, "X7": MALFORMED, "X8": BEYOND, "X9": BEYOND,
    "V1": "a row of Table B is outside the limits, or operators lead out of them",
    "V2": "there are fewer data than the template asks for", "V3": COLUMNS, "V4": COLUMNS, "V5": COLUMNS,
    "V6": "more values than the limits allow"}
NEWER = "the message is newer than all tables here"


def meaning(reason: str) -> str:
    """Return what a refusal means."""
    return NEWER if reason.startswith("no table here reads version ") else MEANS.get(reason.partition(" ")[0], "")
