"""Khovanov homology, proved: the programs `kh` and `kh-scan` from Python.

    import kh
    L = kh.Link("8_19")          # a name, a planar diagram, a DT or Gauss code, a braid word, JSON
    T = L.table(3)               # over the field of 3 elements
    T[13, 4], T.jones, T.poincare()

Degrees are a pair (j, i), the quantum degree first. docs/PYTHON.md is the page of this package, and says what of it is proved.
"""
import importlib
from typing import TYPE_CHECKING, Any

from .version import VERSION as __version__

if TYPE_CHECKING:
    from .comparing import Comparison, compare, names
    from .conversions import from_regina, from_sage, from_snappy
    from .drawings import Drawing
    from .laurent import Polynomial
    from .links import Link, verify
    from .many import Result, frame, read, results
    from .programs import Missing, program
    from .refused import MoveRefused, Refused, TooLarge
    from .identifying.answers import Named, Names, Same, Simplified, identify, same, simplify
    from .identifying.checking import check_answer
    from .tables import FIELDS, Degrees, Table
    from .torsion import Torsion

# Where each name is defined: it is loaded once it is used, so that the scripts, which need few of them, begin quickly.
_ROOMS = {
    "comparing": ("Comparison", "compare", "names"), "conversions": ("from_regina", "from_sage", "from_snappy"),
    "drawings": ("Drawing",), "laurent": ("Polynomial",), "links": ("Link", "verify"), "many": ("Result", "frame", "read", "results"),
    "programs": ("Missing", "program"), "refused": ("MoveRefused", "Refused", "TooLarge"),
    "identifying.answers": ("Named", "Names", "Same", "Simplified", "identify", "same", "simplify"), "identifying.checking": ("check_answer",),
    "tables": ("FIELDS", "Degrees", "Table"), "torsion": ("Torsion",),
}
_ROOM_OF = {name: room for room, names in _ROOMS.items() for name in names}

__all__ = [
    "FIELDS", "Comparison", "Degrees", "Drawing", "Link", "Missing", "MoveRefused", "Named", "Names", "Polynomial", "Refused", "Result",
    "Same", "Simplified", "Table", "TooLarge", "Torsion", "check_answer", "compare", "frame", "from_regina", "from_sage", "from_snappy",
    "identify", "names", "program", "read", "results", "same", "simplify", "verify", "__version__",
]


def __getattr__(name: str) -> Any:
    if name not in _ROOM_OF:
        raise AttributeError(f"module 'kh' has no attribute {name!r}")
    found = globals()[name] = getattr(importlib.import_module(f".{_ROOM_OF[name]}", __name__), name)
    return found


def __dir__() -> list[str]:
    return sorted(__all__)
