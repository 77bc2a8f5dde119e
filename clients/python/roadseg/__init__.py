"""A client of RoadSeg, for Python 3.9 or later, with nothing but the standard library.

It starts `roadseg run`, or connects to `roadseg serve`, sends lines, and gives rows as plain tuples:

    import roadseg

    with roadseg.run("roads.seg") as road:
        road.execute("REMOVE pavement ON SR12 FROM 6 TO 8.5")
        road.execute("INSERT INTO pavement ON SR12 FROM 6 TO 8.5 VALUES (?, ?)", ["asphalt", 2026])
        for route, start, end, surface, year in road.select("WINDOW(pavement, SR12)"):
            print(start, end, surface, year)
        for surface, length in road.total("pavement", by=["surface"]):
            print(surface, length)

Lines are written as in docs/LANGUAGE.md, without the session in front and the LF at the end. What comes back:

    NULL                            None
    INT                             int
    TEXT                            str
    a position, AS ABSOLUTE         Decimal, with its three decimals
    a position by another method    str, as it is printed: '@BRIDGE+0.500', '28.0701755%'
    a number of a total             Decimal for lines, int for points

The language has no dates. `literal` writes a date as the text 'YYYY-MM-DD', which sorts as the date does, and it comes
back as that text: `datetime.date.fromisoformat` makes a date of it.

`roadseg.dbapi` is DB-API 2, `roadseg.reckoning` and `roadseg.pairing` answer what lines can't ask, `roadseg.diagram` draws
roads, `roadseg.page` makes a page of a file, and `python -m roadseg` is a prompt.
"""

from .client import Client
from .errors import Error, Failed, Refused, Unsendable
from .lines import Name, literal, literals
from .loading import Loaded, RefusedRow
from .opening import connect, create, edit, run, schema_of, snapshot
from .rows import Rows
from .schema import Schema

__all__ = [
    "Client",
    "Error",
    "Failed",
    "Loaded",
    "Name",
    "Refused",
    "RefusedRow",
    "Rows",
    "Schema",
    "Unsendable",
    "connect",
    "create",
    "edit",
    "literal",
    "literals",
    "run",
    "schema_of",
    "snapshot",
]

__version__ = "1.0.0"
