"""A wide table, whose rows go into a page by sevens, and lines that put rows into it; and how a line says a measure."""

COLUMNS = 12
WIDE_TABLE = b"0 DEFINE LINE TABLE wide (%s)\n" % b", ".join(b"c%d TEXT(40)" % column for column in range(COLUMNS))


def measure(thousandths):
    return b"%d.%03d" % divmod(thousandths, 1000)


def wide_row(route, place, number):
    """The command that inserts one of seven rows at a thousandth of a route."""
    values = b", ".join(b"'%039d%d'" % (number % 7, column % 10) for column in range(COLUMNS))
    return b"INSERT INTO wide ON %s FROM %s TO %s VALUES (%s)" % (route, measure(place), measure(place + 1), values)
