"""What a field of a listing wants: the words that bufr-lint and bufr-skeleton --notes say of it."""
import re

from .tables import TEXT_UNIT

NUMBER = re.compile(r"(-?)(0|[1-9][0-9]*)(?:\.([0-9]+))?")
TEXT = re.compile(r'"((?:[ !#-\[\]-~]|\\[0-9a-f]{2})*)"')


def is_text(field):
    return field.unit.upper() == TEXT_UNIT


def can_be_missing(field):
    """Whether a field may be missing: no count is, and no field of one bit."""
    return not field.is_factor and (field.width > 1 or is_text(field))


def spelt(number, scale):
    """A whole number of units of ten to the power of minus the scale, as listings spell it."""
    if scale <= 0:
        return str(number * 10 ** -scale)
    digits = str(abs(number)).rjust(scale + 1, "0")
    return "-" * (number < 0) + digits[:-scale] + "." + digits[-scale:]


def bounds(field):
    """The least and the greatest value of a field that is no text, as listings spell them."""
    greatest = (1 << field.width) - 1 - can_be_missing(field)
    return spelt(field.reference, field.scale), spelt(field.reference + greatest, field.scale)


def wanted(field):
    """What a field wants, in words."""
    missing = ", or missing" if can_be_missing(field) else ", never missing"
    if is_text(field):
        return f'a text of {field.width // 8} characters in quotes{missing}'
    least, greatest = bounds(field)
    if field.scale > 0:
        digits = f" with {field.scale} digit{'s' * (field.scale > 1)} after the point"
    elif field.scale < 0:
        digits = f" in steps of {10 ** -field.scale}, without a point"
    else:
        digits = " without a point"
    kind = "a count" if field.is_factor else "a number"
    return f"{kind}{digits}, from {least} to {greatest}{missing}"


def named(field):
    """A field's element, with its unit."""
    unit = f" [{' '.join(field.unit.split())}]" if field.unit else ""
    return f"{' '.join(field.name.split()) or 'no name in the table'}{unit}"


def fault(field, value):
    """What is wrong with a value, in words; nothing if it is as the field wants it."""
    if value == "missing":
        return "" if can_be_missing(field) else "it can't be missing"
    if is_text(field):
        found = TEXT.fullmatch(value)
        if not found:
            return "it is no text in quotes" if value[:1] != '"' or value[-1:] != '"' or len(value) < 2 else \
                'it has a character that is written as \\ and two lower-case hexadecimal digits'
        octets = [int(part[1:], 16) if len(part) > 1 else ord(part) for part in re.findall(r"\\..|.", found[1])]
        if len(octets) != field.width // 8:
            return f"it has {len(octets)} characters"
        if any(32 <= octet <= 126 and chr(octet) not in '"\\' for octet, part in
               zip(octets, re.findall(r"\\..|.", found[1])) if len(part) > 1):
            return "it has a character that is written as itself"
        return "" if set(octets) != {255} else "its octets are all ff, which is missing"
    found = NUMBER.fullmatch(value)
    if not found:
        return "it is no number as listings spell one"
    sign, whole, digits = found[1], found[2], found[3] or ""
    if len(digits) != max(field.scale, 0) or "." in value and field.scale <= 0:
        return f"it has {len(digits) or 'no'} digit{'s' * (len(digits) != 1)} after the point"
    number = int(sign + whole + digits)
    if sign and number == 0:
        return "zero has no sign"
    if field.scale < 0:
        if number % 10 ** -field.scale:
            return f"it is no multiple of {10 ** -field.scale}"
        number //= 10 ** -field.scale
    raw = number - field.reference
    if raw < 0:
        return "it is too small"
    if raw > (1 << field.width) - 1 - can_be_missing(field):
        return "it is too great"
    return ""
