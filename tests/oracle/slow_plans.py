"""Plans of the slow machine: what EXPLAIN prints of a query. No query is answered by them.

The plan is made from the query as it is written, by column names: windows and conjuncts go down from the outermost
operator, and each operator says what its operands are given and what stands above it.
"""

from typing import NamedTuple

from slow_commands import (
    All,
    Any,
    Bracketed,
    ColumnName,
    Comparison,
    Cover,
    Dissolve,
    Gaps,
    IsNull,
    Merge,
    Minus,
    Named,
    Not,
    Overlay,
    Rename,
    Transform,
    Where,
    Window,
)


class Plan(NamedTuple):
    """A node of a plan: its word, what is printed after it, its operands in the written order, the tables below it."""

    word: str
    rest: str
    operands: list
    tables: list


def node(word, rest, operands):
    return Plan(word, rest, operands, [table for operand in operands for table in operand.tables])


# Conditions by the names of their columns.


def conjuncts_of(condition):
    """What has to hold together: the parts with AND between, unless they stand under an OR or in brackets."""
    return condition.parts if isinstance(condition, All) else [condition]


def names_in(condition):
    """The columns that a condition names."""
    match condition:
        case All(parts) | Any(parts):
            return {name for part in parts for name in names_in(part)}
        case Not(inner) | Bracketed(inner):
            return names_in(inner)
        case IsNull(name, _):
            return {name}
        case Comparison(name, _, other):
            return {name, other.name} if isinstance(other, ColumnName) else {name}


def with_name(condition, name, new_name):
    """A condition that names a column otherwise."""

    def again(part):
        return with_name(part, name, new_name)

    match condition:
        case All(parts) | Any(parts):
            return type(condition)([again(part) for part in parts])
        case Not(inner) | Bracketed(inner):
            return type(condition)(again(inner))
        case IsNull(column, is_wanted):
            return IsNull(new_name if column == name else column, is_wanted)
        case Comparison(column, sign, other):
            other = ColumnName(new_name) if other == ColumnName(name) else other
            return Comparison(new_name if column == name else column, sign, other)


def equated(conjuncts):
    """The columns of which a conjunct says no more than that they have a value."""
    return {
        conjunct.column
        for conjunct in conjuncts
        if isinstance(conjunct, Comparison) and conjunct.sign == b"=" and not isinstance(conjunct.other, ColumnName)
    }


class Planner:
    """Makes the plans of queries that were accepted, by the tables, views and indexes of a machine."""

    def __init__(self, machine):
        self.machine = machine
        self.counts = {}

    def lines(self, query):
        """The depth and the text of each node, each before its operands."""
        return self.lines_from(self.place(query, 0, []), 0)

    def lines_from(self, plan, depth):
        text = " ".join([str(depth), plan.word] + ([plan.rest] if plan.rest else []))
        operands = sorted(plan.operands, key=self.weight) if plan.word == "OVERLAY" else plan.operands
        return [text] + [line for operand in operands for line in self.lines_from(operand, depth + 1)]

    def weight(self, plan):
        return sum(self.record_count(table) for table in plan.tables)

    def record_count(self, table):
        """How many maximal runs a table has."""
        if table not in self.counts:
            self.counts[table] = sum(1 for _ in self.machine.runs(self.machine.tables[table]))
        return self.counts[table]

    def column_names(self, query):
        """The names of a query's columns."""
        match query:
            case Named(name) if name in self.machine.views:
                return self.column_names(self.machine.views[name].query)
            case Named(name):
                return [column.name for column in self.machine.tables[name].columns]
            case Dissolve(_, names):
                return names
            case Rename(operand, name, new_name):
                return [new_name if column == name else column for column in self.column_names(operand)]
            case Overlay(left, right) | Cover(left, right):
                return self.column_names(left) + self.column_names(right)
            case Merge(left, _) | Minus(left, _):
                return self.column_names(left)
            case Where() | Window() | Transform():
                return self.column_names(query.operand)
            case Gaps():
                return []

    def place(self, query, windows, conjuncts):
        """The plan of a query under so many windows and under these conjuncts."""
        match query:
            case Named(name) if name in self.machine.views:
                return self.place(self.machine.views[name].query, windows, conjuncts)
            case Named(name):
                return self.leaf(name, windows, conjuncts)
            case Where(operand, condition):
                return self.place(operand, windows, conjuncts + conjuncts_of(condition))
            case Window(operand, _, _):
                return self.place(operand, windows + 1, conjuncts)
            case Rename(operand, name, new_name):
                return self.place(operand, windows, [with_name(one, new_name, name) for one in conjuncts])
            case Dissolve(operand, names):
                return node("DISSOLVE", str(len(names)), [self.place(operand, windows, conjuncts)])
            case Transform(operand, alignment):
                return under_window(node("TRANSFORM", alignment.decode(), [self.place(operand, 0, conjuncts)]), windows)
            case Gaps(operand):
                return under_window(node("GAPS", "", [self.place(operand, 0, [])]), windows)
            case Merge(left, right) | Minus(left, right):
                word = "MERGE" if isinstance(query, Merge) else "MINUS"
                return node(word, "", [self.place(left, windows, conjuncts), self.place(right, windows, conjuncts)])
            case Cover(left, right):
                plan = node("COVER", "", [self.place(left, windows, []), self.place(right, windows, [])])
                return under_where(plan, conjuncts)
            case Overlay():
                return self.overlay(query, windows, conjuncts)

    def overlay(self, query, windows, conjuncts):
        """Each operand has the conjuncts that name its own columns alone; one that is an OVERLAY gives way to its own."""
        operands, left_over = [], list(conjuncts)
        for operand in (query.left, query.right):
            names = set(self.column_names(operand))
            own = [conjunct for conjunct in conjuncts if names_in(conjunct) <= names]
            left_over = [conjunct for conjunct in left_over if conjunct not in own]
            plan = self.place(operand, windows, own)
            operands += plan.operands if plan.word == "OVERLAY" else [plan]
        return under_where(node("OVERLAY", str(len(operands)), operands), left_over)

    def leaf(self, table, windows, conjuncts):
        """A table, by an index that serves, else by its windows, else as a whole."""
        columns = equated(conjuncts)
        names = [name for name, of in self.machine.indexes.items() if of.table == table and of.column in columns]
        way = "INDEX " + min(names).decode() if names else "RANGE" if windows else "SCAN"
        return Plan(way, "%s %d %d" % (table.decode(), windows, len(conjuncts)), [], [table])


def under_window(plan, windows):
    """A plan with windows above it, if there are any."""
    return node("WINDOW", str(windows), [plan]) if windows else plan


def under_where(plan, conjuncts):
    """A plan with conjuncts above it, if there are any."""
    return node("WHERE", str(len(conjuncts)), [plan]) if conjuncts else plan
