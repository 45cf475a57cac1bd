"""FM 94 BUFR weather messages: read, written and collected by the proved program ``bufr``.

The calls are :func:`read` (a DataFrame), :func:`rows`, :func:`messages`, :func:`check`, :func:`encode`, :func:`add` and
:func:`merge`. The commands ``bufr-annotate``, ``bufr-by-version`` and so on are modules of this package. It needs nothing but
Python's standard library and the programs ``bufr`` and ``bufr-ls``, which it brings along; :func:`read` also needs pandas."""

__version__ = "0.1.0"

TYPE_CHECKING = False
if TYPE_CHECKING:
    from .errors import BufrError as BufrError
    from .errors import Missing as Missing
    from .errors import Refused as Refused
    from .reading import check as check
    from .reading import messages as messages
    from .reading import read as read
    from .reading import rows as rows
    from .writing import add as add
    from .writing import encode as encode
    from .writing import merge as merge

# Which module has each name: it is loaded when the name is used, so that a command loads what it needs alone.
_NAMES = {"BufrError": "errors", "Refused": "errors", "Missing": "errors", "read": "reading", "rows": "reading",
          "messages": "reading", "check": "reading", "encode": "writing", "add": "writing", "merge": "writing"}
__all__ = sorted(_NAMES)


def __getattr__(name: str) -> object:
    if name not in _NAMES:
        raise AttributeError(f"module 'bufr' has no attribute '{name}'")
    module = __import__(f"bufr.{_NAMES[name]}", fromlist=[name])
    globals()[name] = found = getattr(module, name)
    return found


def __dir__() -> "list[str]":
    return sorted([*globals(), *_NAMES])
