"""Units of columns, and how they are converted to those of Table B: each is an exact factor and what is added."""
import re
from fractions import Fraction

# The units that are converted to each unit of Table B, with factor and offset: a value in that unit is the factor times the
# value of the column, plus the offset.
UNITS = {
    "K": {"°C": (1, "273.15"), "°F": ("5/9", "45967/180")},
    "Pa": {"hPa": (100, 0), "mbar": (100, 0), "kPa": (1000, 0), "bar": (100000, 0)},
    "m/s": {"km/h": ("5/18", 0), "kt": ("463/900", 0), "mph": ("0.44704", 0), "ft/s": ("0.3048", 0), "cm/s": ("0.01", 0)},
    "m": {"km": (1000, 0), "dm": ("0.1", 0), "cm": ("0.01", 0), "mm": ("0.001", 0), "ft": ("0.3048", 0), "in": ("0.0254", 0),
          "mi": ("1609.344", 0), "NM": (1852, 0)},
    "kg m-2": {"mm": (1, 0), "cm": (10, 0), "in": ("25.4", 0), "l m-2": (1, 0)},
    "%": {"1": (100, 0), "okta": ("12.5", 0), "tenth": (10, 0)},
    "h": {"min": ("1/60", 0), "s": ("1/3600", 0), "d": (24, 0)},
    "min": {"h": (60, 0), "s": ("1/60", 0), "d": (1440, 0)},
    "s": {"h": (3600, 0), "min": (60, 0), "d": (86400, 0)},
    "d": {"h": ("1/24", 0)},
    "J m-2": {"kJ m-2": (1000, 0), "MJ m-2": (1000000, 0), "J cm-2": (10000, 0), "Wh m-2": (3600, 0), "kWh m-2": (3600000, 0)},
    "W m-2": {"kW m-2": (1000, 0)},
    "gpm": {"m": (1, 0), "dam": (10, 0), "gpdam": (10, 0)},
    "kg m-3": {"g m-3": ("0.001", 0)},
    "kg/kg": {"g/kg": ("0.001", 0)},
}
# Other spellings of units.
ALIKE = {
    "c": "°C", "degc": "°C", "deg c": "°C", "celsius": "°C", "℃": "°C",
    "f": "°F", "degf": "°F", "deg f": "°F", "fahrenheit": "°F",
    "kelvin": "K", "mb": "mbar", "m s-1": "m/s", "mps": "m/s", "km h-1": "km/h", "kmh": "km/h", "kph": "km/h", "knot": "kt",
    "knots": "kt", "kn": "kt", "kts": "kt", "mi/h": "mph", "metre": "m", "meter": "m", "feet": "ft", "foot": "ft", "inch": "in",
    "inches": "in", "nmi": "NM", "percent": "%", "oktas": "okta", "eighths": "okta", "1/8": "okta",
    "tenths": "tenth", "1/10": "tenth",
    "fraction": "1", "hour": "h", "hours": "h", "minute": "min", "minutes": "min", "second": "s", "seconds": "s", "day": "d",
    "days": "d", "degree": "deg", "degrees": "deg", "°": "deg", "kg/m2": "kg m-2", "l/m2": "l m-2", "j/m2": "J m-2",
    "kj/m2": "kJ m-2", "mj/m2": "MJ m-2", "j/cm2": "J cm-2", "wh/m2": "Wh m-2", "kwh/m2": "kWh m-2", "w/m2": "W m-2",
    "kw/m2": "kW m-2", "kg/m3": "kg m-3", "g/m3": "g m-3",
}
# A difference of temperatures is the same number in degrees Celsius and in kelvins.
DIFFERENCE = re.compile("CHANGE|DIFFERENCE|DEVIATION|UNCERTAINTY|PRECISION|ACCURACY|DELTA|ERROR|INDEX|BIAS|BUOYANCY|INDICATOR", re.I)


def plain(unit):
    """A unit in one spelling."""
    unit = " ".join(unit.replace("²", "2").replace("³", "3").replace("⁻", "-").replace("¹", "1").split())
    return ALIKE.get(unit.lower(), unit)


def known(unit):
    """The units that are converted to one of Table B."""
    return [plain(unit), *UNITS.get(plain(unit), ())]


def conversion(column_unit, field):
    """The factor and the offset that convert a column's unit to that of a field, or nothing where none does."""
    to = plain(field.unit)
    for name in known(field.unit):
        if name == plain(column_unit) or name.lower() == plain(column_unit).lower():
            factor, offset = UNITS.get(to, {}).get(name, (1, 0)) if name != to else (1, 0)
            return Fraction(factor), Fraction(0 if DIFFERENCE.search(field.name) else offset)
    return None
