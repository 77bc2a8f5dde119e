"""A stand-in for pandas, where it is not there: as much of it as the client in Python and its tests name.

What it does was written from pandas' documentation. It shows that the client asks for what it should, and not that pandas does
what it says.
"""


class NAType:
    """The type of NA, of which every comparison is NA, which is neither true nor false."""

    def __bool__(self):
        raise TypeError("boolean value of NA is ambiguous")

    def __eq__(self, other):
        return self

    __ne__ = __eq__
    __hash__ = object.__hash__

    def __repr__(self):
        return "<NA>"


class NaTType:
    """The type of NaT, which is equal to nothing."""

    def __eq__(self, other):
        return False

    def __ne__(self, other):
        return True

    __hash__ = object.__hash__


NA, NaT = NAType(), NaTType()


class Series(list):
    """A column: its values, and what they are kept as."""

    def __init__(self, values, dtype=None):
        super().__init__(values)
        self.dtype = dtype

    def tolist(self):
        return list(self)


def array(values, dtype):
    """Values of a type, of which only the numbers with NA are here."""
    if dtype != "Int64" or not all(value is None or type(value) is int for value in values):
        raise TypeError(dtype)
    return Series([NA if value is None else value for value in values], dtype)


class DataFrame:
    """A table of columns by their names."""

    def __init__(self, data):
        self.data = {name: values if isinstance(values, Series) else Series(values) for name, values in data.items()}
        if len({len(values) for values in self.data.values()}) > 1:
            raise ValueError("columns of several lengths")

    @property
    def columns(self):
        return list(self.data)

    def __getitem__(self, name):
        return self.data[name]

    def __len__(self):
        return len(next(iter(self.data.values()), ()))

    def itertuples(self, index=True):
        return zip(*([range(len(self))] if index else []), *self.data.values())


class Timestamp:
    """A time is the one of the standard library here."""

    def __new__(cls, text):
        import datetime

        return datetime.datetime.fromisoformat(text)
