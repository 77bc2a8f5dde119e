"""What the slow machine keeps of a route and of a table.

A route has referents, by which places are located and expressed. A table has, for each route and each single
thousandth, the set of rows that hold there.
"""

from slow_commands import Absolute, Interpolative, Relative, refuse_if
from slow_queries import QueryColumn
from slow_reader import WHOLE_PART


class Route:
    """A route and its referents, START among them."""

    def __init__(self, start, finish):
        self.start = start
        self.finish = finish
        self.referents = {b"START": start}

    def locate(self, position):
        """Where a position lies: refused 25, then 30."""
        match position:
            case Absolute(measure):
                place = measure
            case Relative(name, offset):
                refuse_if(name not in self.referents, 25)
                place = self.referents[name] + offset
            case Interpolative(part):
                place = self.start + part * (self.finish - self.start) // WHOLE_PART
        self.check_place(place)
        return place

    def check_place(self, place):
        refuse_if(not self.start <= place <= self.finish, 30)

    def places_of(self, ends):
        """Where positions lie: the first is looked at first, then the second, then 31 where they are no span."""
        places = [self.locate(position) for position in ends]
        refuse_if(len(places) == 2 and places[0] >= places[1], 31)
        return places

    def within(self, ends):
        """The thousandths of a span; where none is given, of the whole route, its end among them."""
        return range(*self.places_of(ends)) if ends else range(self.start, self.finish + 1)

    def express(self, place, method):
        """The text of a place by a method."""
        if method == b"RELATIVE":
            return self.relative_text(place)
        if method == b"INTERPOLATIVE":
            return percentage_text(self.part_of(place))
        return measure_text(place)

    def relative_text(self, place):
        """By the referent with the greatest measure not above the place, ties to the least name."""
        nearest = max(measure for measure in self.referents.values() if measure <= place)
        name = min(name for name, measure in self.referents.items() if measure == nearest)
        return "@" + name.decode() + "+" + measure_text(place - nearest)

    def part_of(self, place):
        """The least billionths of the route's length that lie at the place: a quotient rounded up."""
        length = self.finish - self.start
        return ((place - self.start) * WHOLE_PART + length - 1) // length


class Table:
    """A kind, columns, and for each route and thousandth the set of rows that hold there."""

    def __init__(self, is_line, types):
        self.is_line = is_line
        self.types = types
        self.columns = [QueryColumn(column.name, column.longest is not None) for column in types]
        self.rows = {}

    def places(self, route):
        return self.rows.get(route, {}).keys()

    def rows_at(self, route, place):
        return self.rows.get(route, {}).get(place, set())

    def put(self, route, place, row):
        """The row holds at the thousandth from now on; says whether it is new there."""
        rows = self.rows.setdefault(route, {}).setdefault(place, set())
        is_new = row not in rows
        rows.add(row)
        return is_new

    def take_away(self, route, place, row):
        """The row does not hold at the thousandth from now on."""
        self.rows[route][place].remove(row)
        if not self.rows[route][place]:
            del self.rows[route][place]

    def check_row(self, row):
        """Refused 33 for the number of values, then for their types from the left; then 34."""
        refuse_if(len(row) != len(self.types), 33)
        for column, value in zip(self.types, row):
            refuse_if(isinstance(value, bytes) and column.longest is None, 33)
            refuse_if(isinstance(value, int) and column.longest is not None, 33)
        for column, value in zip(self.types, row):
            refuse_if(isinstance(value, bytes) and len(value) > column.longest, 34)


def measure_text(place):
    return "%d.%03d" % divmod(place, 1000)


def percentage_text(part):
    return "%d.%07d%%" % divmod(part, 10**7)
