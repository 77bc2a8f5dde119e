"""Sorts of lines, and how many of each must have been among the lines that were compared.

A generator whose lines are mostly refused, or never of some sort, is noticed by them.
"""

import re
from collections import Counter
from typing import NamedTuple


class Sort(NamedTuple):
    """Lines of one sort: what the text after the session begins with, patterns that are found in that text
    and in the reply, a mark of the line's writer, and how many of 1,000 lines are of it at the least."""

    begins: bytes
    holds: bytes
    answer: bytes
    least: float
    mark: str | None = None

    def title(self):
        words = [self.begins.decode() + "..", self.holds.decode(), self.mark or ""]
        return " ".join(word for word in words if word) + ", answered " + self.answer.decode()


OK = rb" OK \d+$"
SOME = rb" OK [1-9]\d*$"
ROW = rb" ROW "
POINT_ROW = rb" ROW \w+ \d+\.\d{3} (?!\d+\.\d{3}( |$))"
SUM = rb"\bSUM\b"
UNCHOSEN = rb"^(?!.*(?:WHERE|DISSOLVE|RENAME)).*"
UNPAIRED = rb"^(?!.*(?:DISSOLVE|RENAME|OVERLAY|COVER)).*"

SORTS = [
    # Accepted.
    Sort(b"", rb"", OK, 293),
    Sort(b"DEFINE ROUTE ", rb"", OK, 2.4),
    Sort(b"DEFINE LINE TABLE ", rb"", OK, 0.94),
    Sort(b"DEFINE LINE TABLE ", rb"(,.*){15}", OK, 0.1),
    Sort(b"DEFINE ", rb"", OK, 0.05, "960 bytes of a row"),
    Sort(b"DEFINE REFERENT ", rb"", OK, 5.1),
    Sort(b"DEFINE REFERENT ", rb"%", OK, 2),
    Sort(b"DEFINE REFERENT ", rb"AT *@", OK, 1.7),
    Sort(b"MOVE REFERENT ", rb"", OK, 7.7),
    Sort(b"MOVE REFERENT ", rb"%", OK, 3.2),
    Sort(b"MOVE REFERENT ", rb"TO *@", OK, 2.2),
    Sort(b"DROP REFERENT ", rb"", OK, 3.6),
    Sort(b"INSERT ", rb"", OK, 27),
    Sort(b"INSERT ", rb"%", OK, 16),
    Sort(b"INSERT ", rb"@ *START", OK, 4.8),
    Sort(b"INSERT ", rb"@ *K", OK, 6.4),
    Sort(b"INSERT ", rb"", rb" OK 0$", 2.9),
    Sort(b"INSERT ", rb"NULL", OK, 8.2),
    Sort(b"INSERT ", rb"\( *- *\d", OK, 4.8),
    Sort(b"INSERT ", rb"\( *- *0+\b", OK, 0.28),
    Sort(b"INSERT ", rb"1000000000000\b", OK, 5.4),
    Sort(b"INSERT ", rb"'[^']*''[^']*'", OK, 5.4),
    Sort(b"INSERT ", rb"[\x80-\xff]", OK, 6.5),
    Sort(b"INSERT ", rb"'([^']|''){120}'", OK, 0.2),
    Sort(b"INSERT ", rb"", OK, 1.6, "touching"),
    Sort(b"INSERT ", rb"", OK, 5.1, "overlapping"),
    Sort(b"INSERT ", rb"", OK, 0.42, "within"),
    Sort(b"INSERT ", rb"", OK, 0.87, "around"),
    Sort(b"INSERT ", rb"", OK, 3.6, "across another row"),
    Sort(b"SELECT ", rb"AS *ABSOLUTE", OK, 13),
    Sort(b"SELECT ", rb"AS *RELATIVE", rb"@K", 8.3),
    Sort(b"SELECT ", rb"AS *RELATIVE", rb"@START", 6.8),
    Sort(b"SELECT ", rb"AS *INTERPOLATIVE", rb"%", 8.8),
    Sort(b"SELECT ", rb"^SELECT +\w+ *$", OK, 9.1),
    Sort(b"SELECT ", rb"", rb" OK \d\d$", 6.8),
    Sort(b"SELECT ", rb"", rb"(?s)ROW (\w+) .*ROW (?!\1 )", 45),
    Sort(b"SELECT ", rb"", rb" NULL", 27),
    Sort(b"SELECT ", rb"", rb"''", 28),
    Sort(b"SELECT ", rb"", rb"[\x80-\xff]", 21),
    Sort(b"TRANSLATE ", rb"AS *ABSOLUTE", OK, 4.7),
    Sort(b"TRANSLATE ", rb"AS *RELATIVE", rb"@START", 1.6),
    Sort(b"TRANSLATE ", rb"AS *RELATIVE", rb"@K", 2.7),
    Sort(b"TRANSLATE ", rb"AS *INTERPOLATIVE", OK, 4.6),
    Sort(b"TRANSLATE ", rb"%", OK, 5.6),
    Sort(b"TRANSLATE ", rb"@", OK, 4.2),
    # Points, removals, views and drops.
    Sort(b"DEFINE POINT TABLE ", rb"", OK, 0.6),
    Sort(b"INSERT ", rb" AT\b", OK, 9.3),
    Sort(b"INSERT ", rb" AT\b", rb" OK 0$", 0.71),
    Sort(b"INSERT ", rb"", OK, 1.1, "point at the end"),
    Sort(b"INSERT ", rb"", OK, 4.7, "to the end"),
    Sort(b"REMOVE ", rb" FROM\b", SOME, 1.9),
    Sort(b"REMOVE ", rb"^[^F]*$", SOME, 0.94),
    Sort(b"REMOVE ", rb" FROM\b.*WHERE\b", SOME, 0.78),
    Sort(b"REMOVE ", rb"^[^F]*WHERE\b", SOME, 0.3),
    Sort(b"REMOVE ", rb"", rb" OK 0$", 4.5),
    Sort(b"DEFINE VIEW ", rb"", OK, 5.2),
    Sort(b"DEFINE VIEW ", rb"WINDOW.*@", OK, 0.43),
    Sort(b"DEFINE VIEW ", rb"", OK, 0.65, "view"),
    Sort(b"DROP ROUTE ", rb"", OK, 0.71),
    Sort(b"DROP TABLE ", rb"", OK, 1),
    Sort(b"DROP VIEW ", rb"", OK, 3.4),
    # Alignments.
    Sort(b"DEFINE ALIGNMENT ", rb"", OK, 4.4),
    Sort(b"DEFINE ALIGNMENT ", rb"^[^,]*$", OK, 1.9),
    Sort(b"DEFINE ALIGNMENT ", rb",.*,", OK, 1.5),
    Sort(b"DEFINE ALIGNMENT ", rb"", OK, 2.8, "onto its own route"),
    Sort(b"DEFINE ALIGNMENT ", rb"", OK, 1.2, "overlapping pieces"),
    Sort(b"DEFINE ALIGNMENT ", rb"", OK, 0.06, "64 pieces"),
    Sort(b"DEFINE ALIGNMENT ", rb"ALIGNMENT +(pave|speed|both|notes|lanes|wide|crash|sign)\b", OK, 1.1),
    Sort(b"DEFINE VIEW ", rb"TRANSFORM", OK, 0.97),
    Sort(b"DEFINE VIEW ", rb"GAPS", OK, 0.3),
    Sort(b"DROP ALIGNMENT ", rb"", OK, 2.9),
    # Queries: each operator, outermost and anywhere, and parts of conditions, where there are rows.
    Sort(b"SELECT ", rb"^SELECT +WHERE\b", ROW, 4.4, "query"),
    Sort(b"SELECT ", rb"WHERE\b", ROW, 14, "query"),
    Sort(b"SELECT ", rb"WHERE\b", POINT_ROW, 3.1, "query"),
    Sort(b"SELECT ", rb"^SELECT +DISSOLVE\b", ROW, 4.8, "query"),
    Sort(b"SELECT ", rb"DISSOLVE\b", ROW, 12, "query"),
    Sort(b"SELECT ", rb"DISSOLVE\b", POINT_ROW, 2.3, "query"),
    Sort(b"SELECT ", rb"^SELECT +RENAME\b", ROW, 3, "query"),
    Sort(b"SELECT ", rb"RENAME\b", ROW, 13, "query"),
    Sort(b"SELECT ", rb"RENAME\b", POINT_ROW, 3, "query"),
    Sort(b"SELECT ", rb"^SELECT +WINDOW\b", ROW, 1.7, "query"),
    Sort(b"SELECT ", rb"WINDOW\b", ROW, 6.8, "query"),
    Sort(b"SELECT ", rb"WINDOW\b", POINT_ROW, 1.3, "query"),
    Sort(b"SELECT ", rb"^SELECT +TRANSFORM\b", ROW, 3.2, "query"),
    Sort(b"SELECT ", rb"TRANSFORM\b", ROW, 6.8, "query"),
    Sort(b"SELECT ", rb"TRANSFORM\b", POINT_ROW, 1.4, "query"),
    Sort(b"SELECT ", rb"TRANSFORM\b.*TRANSFORM\b", ROW, 1.3, "query"),
    Sort(b"SELECT ", rb"^SELECT +TRANSFORM *\(.*(OVERLAY|COVER|MERGE|MINUS)", ROW, 0.93),
    Sort(b"SELECT ", rb"^SELECT +TRANSFORM *\(.*(WHERE|DISSOLVE|RENAME)", ROW, 1.1),
    Sort(b"SELECT ", rb"^SELECT +TRANSFORM *\(.*WINDOW", ROW, 0.1),
    Sort(b"SELECT ", rb"^SELECT +WINDOW *\(.*TRANSFORM", ROW, 0.19),
    Sort(b"SELECT ", rb"^SELECT +(OVERLAY|COVER|MERGE|MINUS) *\(.*TRANSFORM", ROW, 2.4),
    Sort(b"SELECT ", rb"^SELECT +GAPS\b", ROW, 4, "query"),
    Sort(b"SELECT ", rb"GAPS\b", ROW, 8, "query"),
    Sort(b"SELECT ", rb"GAPS\b", POINT_ROW, 0.05, "query"),
    Sort(b"SELECT ", rb"GAPS\b.*GAPS\b", ROW, 1.1),
    Sort(b"SELECT ", rb"^SELECT +GAPS *\(.*(OVERLAY|COVER|MERGE|MINUS)", ROW, 1.3),
    Sort(b"SELECT ", rb"^SELECT +GAPS *\(.*(WHERE|DISSOLVE|RENAME)", ROW, 1.5),
    Sort(b"SELECT ", rb"^SELECT +GAPS *\(.*TRANSFORM", ROW, 0.5),
    Sort(b"SELECT ", rb"^SELECT +TRANSFORM *\(.*GAPS", ROW, 0.3),
    Sort(b"SELECT ", rb"^SELECT +WINDOW *\( *GAPS", ROW, 0.8),
    Sort(b"SELECT ", rb"^SELECT +OVERLAY *\(.*GAPS", ROW, 0.6),
    Sort(b"SELECT ", rb"^SELECT +COVER *\(.*GAPS", ROW, 0.7),
    Sort(b"SELECT ", rb"^SELECT +MERGE *\(.*GAPS", ROW, 0.25),
    Sort(b"SELECT ", rb"^SELECT +MINUS *\(.*GAPS", ROW, 0.25),
    Sort(b"SELECT ", rb"^SELECT +WHERE *\(.*GAPS", ROW, 0.05),
    Sort(b"SELECT ", rb"^SELECT +DISSOLVE *\(.*GAPS", ROW, 0.35),
    Sort(b"SELECT ", rb"^SELECT +RENAME *\(.*GAPS", ROW, 0.05),
    Sort(b"SELECT ", rb"^SELECT +OVERLAY\b", ROW, 3.9, "query"),
    Sort(b"SELECT ", rb"OVERLAY\b", ROW, 7.9, "query"),
    Sort(b"SELECT ", rb"OVERLAY\b", POINT_ROW, 2.4, "query"),
    Sort(b"SELECT ", rb"^SELECT +COVER\b", ROW, 6.5, "query"),
    Sort(b"SELECT ", rb"COVER\b", ROW, 11, "query"),
    Sort(b"SELECT ", rb"COVER\b", POINT_ROW, 2.4, "query"),
    Sort(b"SELECT ", rb"^SELECT +MERGE\b", ROW, 4.2, "query"),
    Sort(b"SELECT ", rb"MERGE\b", ROW, 8.2, "query"),
    Sort(b"SELECT ", rb"MERGE\b", POINT_ROW, 1.7, "query"),
    Sort(b"SELECT ", rb"^SELECT +MINUS\b", ROW, 2.6, "query"),
    Sort(b"SELECT ", rb"MINUS\b", ROW, 5.7, "query"),
    Sort(b"SELECT ", rb"MINUS\b", POINT_ROW, 1.3, "query"),
    Sort(b"SELECT ", rb"^SELECT +MINUS *\(.*(OVERLAY|COVER)", ROW, 0.73),
    Sort(b"SELECT ", rb"^SELECT +(OVERLAY|COVER) *\(.*MINUS", ROW, 1.5),
    Sort(b"SELECT ", rb"^SELECT +WINDOW *\(.*(MERGE|MINUS)", ROW, 0.43),
    Sort(b"SELECT ", rb"^SELECT +WHERE *\(.*(OVERLAY|COVER)", ROW, 0.85),
    Sort(b"SELECT ", rb"^SELECT +DISSOLVE *\(.*(OVERLAY|COVER)", ROW, 0.92),
    Sort(b"SELECT ", rb", *\( *\) *\)", rb" ROW \w+ \S+ \S+$", 1),
    Sort(b"SELECT ", rb"\bNOT *\(", ROW, 4.4),
    Sort(b"SELECT ", rb" AND\b", ROW, 7.7),
    Sort(b"SELECT ", rb" OR\b", ROW, 7.4),
    Sort(b"SELECT ", rb" IS +NULL", ROW, 2.5),
    Sort(b"SELECT ", rb" IS +NOT +NULL", ROW, 2.8),
    Sort(b"SELECT ", rb"\w *(<>|<=?|>=?|=) *[A-Za-z]", ROW, 4.8),
    Sort(b"SELECT ", rb"COVER", rb" NULL", 9.8),
    Sort(b"SELECT ", rb"", rb" ROW (\w+ \S+ \S+)(.*\n.* ROW \1)", 7.1, "query"),
    Sort(b"SELECT ", rb"", ROW, 7.5, "view"),
    Sort(b"SELECT ", rb"AS *RELATIVE", ROW, 5.9, "query"),
    Sort(b"SELECT ", rb"AS *INTERPOLATIVE", ROW, 5.7, "query"),
    Sort(b"SELECT ", rb"", ROW, 0.88, "depth 8"),
    Sort(b"SELECT ", rb"", ROW, 12, "depth 2"),
    Sort(b"SELECT ", rb"", ROW, 7.8, "depth 3"),
    Sort(b"SELECT ", rb"", ROW, 5.6, "depth 4"),
    Sort(b"SELECT ", rb"", ROW, 3.4, "depth 5"),
    Sort(b"SELECT ", rb"", ROW, 2.3, "depth 6"),
    Sort(b"SELECT ", rb"", ROW, 1.5, "depth 7"),
    Sort(b"SELECT ", rb"", OK, 0.09, "depth 32"),
    Sort(b"SELECT ", rb"", OK, 0.22, "255 nodes"),
    Sort(b"SELECT ", rb"", OK, 0.37, "256 nodes"),
    Sort(b"SELECT ", rb"", rb" ERR 27 ", 0.1, "257 nodes"),
    Sort(b"SELECT ", rb"", rb" ERR 27 ", 0.05, "depth 33"),
    Sort(b"SELECT ", rb"", rb" ERR 11 ", 0.34, "33 brackets"),
    Sort(b"SELECT ", rb"", OK, 0.1, "32 brackets"),
    # Totals: their groups, and the three numbers of lines and of points.
    Sort(b"TOTAL ", rb"", OK, 9.7),
    Sort(b"TOTAL ", rb"", rb" OK 0$", 2.9),
    Sort(b"TOTAL ", rb"", ROW, 6.7),
    Sort(b"TOTAL ", rb"", ROW, 0.82, "view"),
    Sort(b"TOTAL ", rb"BY *\( *\) *$", ROW, 0.77),
    Sort(b"TOTAL ", rb"BY *\( *\w+ *\) *$", ROW, 1.6),
    Sort(b"TOTAL ", rb"BY *\( *\) *SUM\b", ROW, 1.1),
    Sort(b"TOTAL ", rb"BY *\( *\w+ *\) *SUM\b", ROW, 1.8),
    Sort(b"TOTAL ", rb"BY *\([^)]*,.*\) *SUM\b", ROW, 0.85),
    Sort(b"TOTAL ", rb"BY *\([^)]*\b(\w+)\b[^)]*\) *SUM *\1\b", ROW, 1.7),
    Sort(b"TOTAL ", rb"", rb"(?s) ROW .* ROW ", 2.9),
    Sort(b"TOTAL ", rb"", rb" ROW NULL ", 1.5),
    Sort(b"TOTAL ", rb"", rb" ROW .*'", 2.7),
    Sort(b"TOTAL ", SUM, rb" ROW (.* )?\d+\.\d{3}$", 2.3),
    Sort(b"TOTAL ", SUM, rb" ROW (.* )?-\d+\.\d{3}$", 1.2),
    Sort(b"TOTAL ", SUM, rb" ROW (.* )?\d+$", 0.82),
    Sort(b"TOTAL ", SUM, rb" ROW (.* )?-\d+$", 0.25),
    Sort(b"TOTAL ", rb"\) *$", rb" ROW (.* )?\d+$", 0.82),
    Sort(b"TOTAL ", SUM, rb" ROW (.* )?0\.000 0\.000$", 0.58),
    Sort(b"TOTAL ", SUM, rb" ROW (.* )?0 0$", 0.15),
    Sort(b"TOTAL ", SUM, rb" ROW (.* )?(?!0\.000)\d+\.\d{3} 0\.000$", 0.12),
    Sort(b"TOTAL ", SUM, rb" ROW (.* )?-?\d{13,}(\.\d{3})?$", 0.25),
    Sort(b"TOTAL ", SUM, ROW, 0.34, "more values than places"),
    Sort(b"TOTAL ", rb"^TOTAL +WHERE\b", ROW, 0.55),
    Sort(b"TOTAL ", rb"^TOTAL +DISSOLVE\b", ROW, 0.34),
    Sort(b"TOTAL ", rb"^TOTAL +RENAME\b", ROW, 0.28),
    Sort(b"TOTAL ", rb"^TOTAL +WINDOW\b", ROW, 0.1),
    Sort(b"TOTAL ", rb"^TOTAL +OVERLAY\b", ROW, 0.37),
    Sort(b"TOTAL ", rb"^TOTAL +COVER\b", ROW, 0.55),
    Sort(b"TOTAL ", rb"^TOTAL +MERGE\b", ROW, 0.37),
    Sort(b"TOTAL ", rb"^TOTAL +MINUS\b", ROW, 0.22),
    Sort(b"TOTAL ", rb"GAPS\b", ROW, 0.5),
    Sort(b"TOTAL ", rb"TRANSFORM\b", ROW, 0.6),
    Sort(b"TOTAL ", rb"TRANSFORM\b.*\bSUM\b", ROW, 0.3),
    # Indexes and plans.
    Sort(b"DEFINE INDEX ", rb"", OK, 4.8),
    Sort(b"DEFINE INDEX ", rb"INDEX +(pave|speed|both|notes|lanes|wide|crash|sign)\b", OK, 1.1),
    Sort(b"DROP INDEX ", rb"", OK, 1.1),
    Sort(b"EXPLAIN ", rb"", OK, 81),
    Sort(b"EXPLAIN ", rb"", OK, 14, "view"),
    Sort(b"EXPLAIN ", rb"", rb" ROW 0 SCAN ", 18),
    Sort(b"EXPLAIN ", rb"", rb" ROW 0 RANGE ", 3),
    Sort(b"EXPLAIN ", rb"", rb" ROW 0 INDEX ", 0.86),
    Sort(b"EXPLAIN ", rb"", rb" ROW [1-9]\d* SCAN \w+ 0 0$", 48),
    Sort(b"EXPLAIN ", rb"", rb" ROW [1-9]\d* SCAN \w+ 0 [1-9]", 21),
    Sort(b"EXPLAIN ", rb"", rb" ROW [1-9]\d* RANGE \w+ \d+ 0$", 14),
    Sort(b"EXPLAIN ", rb"", rb" ROW [1-9]\d* RANGE \w+ \d+ [1-9]", 5.7),
    Sort(b"EXPLAIN ", rb"", rb" ROW [1-9]\d* INDEX \w+ \w+ 0 ", 4.4),
    Sort(b"EXPLAIN ", rb"", rb" INDEX \w+ \w+ [1-9]", 1.3),
    Sort(b"EXPLAIN ", rb"", rb" INDEX \w+ \w+ \d+ [2-9]", 3.4),
    Sort(b"EXPLAIN ", rb"", rb" INDEX (\w+) .*\n(.*\n)*.* INDEX (?!\1 )", 0.16),
    Sort(b"EXPLAIN ", rb"RENAME", rb" INDEX ", 2.3),
    Sort(b"EXPLAIN ", rb"TRANSFORM", rb" INDEX ", 1.5),
    Sort(b"EXPLAIN ", rb"DISSOLVE", rb" INDEX ", 1.9),
    Sort(b"EXPLAIN ", rb"(COVER|MERGE|MINUS)", rb" INDEX ", 4.1),
    Sort(b"EXPLAIN ", rb"", rb" WHERE [1-9]", 7),
    Sort(b"EXPLAIN ", rb"", rb" WHERE [2-9]", 2.1),
    Sort(b"EXPLAIN ", rb"", rb" WHERE \d+\n.* COVER$", 5.2),
    Sort(b"EXPLAIN ", rb"", rb" WHERE \d+\n.* OVERLAY \d+$", 2.1),
    Sort(b"EXPLAIN ", rb"", rb" WINDOW 1\n.* TRANSFORM ", 2.8),
    Sort(b"EXPLAIN ", rb"", rb" WINDOW 1\n.* GAPS\n", 2.5),
    Sort(b"EXPLAIN ", rb"", rb" GAPS\n.* (INDEX|RANGE|SCAN) ", 7),
    Sort(b"EXPLAIN ", rb"", rb" GAPS\n.* INDEX ", 0.1),
    Sort(b"EXPLAIN ", rb"", rb" WINDOW [2-9]\n.* TRANSFORM ", 0.54),
    Sort(b"EXPLAIN ", rb"", rb" TRANSFORM \w+\n(.*\n)*.* TRANSFORM ", 6.4),
    Sort(b"EXPLAIN ", rb"", rb" DISSOLVE 0$", 5),
    Sort(b"EXPLAIN ", rb"", rb" DISSOLVE [1-9]", 20),
    Sort(b"EXPLAIN ", rb"", rb" OVERLAY 2$", 20),
    Sort(b"EXPLAIN ", rb"", rb" OVERLAY 3$", 2.9),
    Sort(b"EXPLAIN ", rb"", rb" OVERLAY [4-9]$", 0.51),
    Sort(b"EXPLAIN ", rb"", rb" COVER$", 19),
    Sort(b"EXPLAIN ", rb"", rb" MERGE$", 16),
    Sort(b"EXPLAIN ", rb"", rb" MINUS$", 20),
    Sort(b"EXPLAIN ", rb"", rb" OK \d\d$", 9.8),
    Sort(b"EXPLAIN ", rb"", rb" OK \d\d\d$", 0.58),
    # Cursors.
    Sort(b"OPEN ", rb"", OK, 16),
    Sort(b"OPEN ", rb"AS *RELATIVE", OK, 3.2),
    Sort(b"OPEN ", rb"AS *INTERPOLATIVE", OK, 3.3),
    Sort(b"OPEN ", rb"(OVERLAY|COVER|MERGE|MINUS|TRANSFORM)", OK, 7.1),
    Sort(b"OPEN ", rb"GAPS", OK, 1),
    Sort(b"OPEN ", rb"", OK, 2.2, "view"),
    Sort(b"FETCH ", rb"", ROW, 7.3),
    Sort(b"FETCH ", rb"", ROW, 1.6, "late"),
    Sort(b"FETCH ", rb"", rb"ROW .*@", 0.17, "late"),
    Sort(b"FETCH ", rb"", POINT_ROW, 1.2),
    Sort(b"FETCH ", rb"", rb" OK 0$", 11),
    Sort(b"FETCH ", rb"", rb" OK \d\d$", 0.18),
    Sort(b"FETCH ", rb" 0*1 *$", rb" OK 1$", 3.2),
    Sort(b"FETCH ", rb" 0*1000 *$", ROW, 1.4),
    Sort(b"CLOSE ", rb"", OK, 2.7),
    Sort(b"SAVE", rb"", OK, 1.8),
    Sort(b"REOPEN", rb"", OK, 5),
    # Refused, by each number that today's grammar can give.
    Sort(b"", rb"", rb"^0 ERR 1 ", 9),
    Sort(b"", rb"", rb"^0 ERR 2 ", 3),
    Sort(b"", rb"", rb"^0 ERR 3 ", 7),
    Sort(b"", rb"", rb" ERR 10 ", 7),
    Sort(b"", rb"", rb" ERR 11 ", 48),
    Sort(b"", rb"", rb" ERR 12 ", 19),
    Sort(b"", rb"", rb" ERR 20 ", 13),
    Sort(b"", rb"", rb" ERR 21 ", 23),
    Sort(b"", rb"", rb" ERR 22 ", 6),
    Sort(b"", rb"", rb" ERR 23 ", 9.5),
    Sort(b"", rb"", rb" ERR 24 ", 18),
    Sort(b"", rb"", rb" ERR 25 ", 15),
    Sort(b"", rb"", rb" ERR 27 ", 3),
    Sort(b"", rb"", rb" ERR 30 ", 8.4),
    Sort(b"", rb"", rb" ERR 31 ", 5.1),
    Sort(b"", rb"", rb" ERR 32 ", 0.92),
    Sort(b"", rb"", rb" ERR 33 ", 6.7),
    Sort(b"", rb"", rb" ERR 34 ", 1.5),
    Sort(b"", rb"", rb" ERR 40 ", 1.5),
    Sort(b"", rb"", rb" ERR 41 ", 2),
    Sort(b"", rb"", rb" ERR 42 ", 1.2),
    Sort(b"", rb"", rb" ERR 60 ", 7.2),
    Sort(b"", rb"", rb" ERR 61 ", 1.6),
    Sort(b"", rb"", rb" ERR 62 ", 0.15),
    Sort(b"DEFINE ROUTE ", rb"", rb" ERR (24|31) ", 2),
    Sort(b"DEFINE ROUTE ", rb"", rb" ERR 27 ", 0.2),
    Sort(b"DEFINE LINE TABLE ", rb"", rb" ERR 24 ", 1.1),
    Sort(b"DEFINE LINE TABLE ", rb"(,.*){16}", rb" ERR 27 ", 0.08),
    Sort(b"DEFINE LINE TABLE ", rb"^(?!(.*,){16})", rb" ERR 27 ", 0.05),
    Sort(b"DEFINE ", rb"", rb" ERR 27 ", 0.05, "961 bytes of a row"),
    Sort(b"DEFINE REFERENT ", rb"", rb" ERR 24 ", 4.4),
    Sort(b"DEFINE REFERENT ", rb" START +AT", rb" ERR 24 ", 2),
    Sort(b"DEFINE REFERENT ", rb"", rb" ERR 27 ", 0.1),
    Sort(b"MOVE REFERENT ", rb" START +TO", rb" ERR 23 ", 1.2),
    Sort(b"DROP REFERENT ", rb" START *$", rb" ERR 23 ", 0.56),
    Sort(b"INSERT ", rb"[\x80-\xff]", rb" ERR 34 ", 0.66),
    Sort(b"DEFINE POINT TABLE ", rb"", rb" ERR 24 ", 0.66),
    Sort(b"DEFINE VIEW ", rb"", rb" ERR 21 ", 0.48),
    Sort(b"DEFINE VIEW ", rb"", rb" ERR 22 ", 0.2),
    Sort(b"DEFINE VIEW ", rb"", rb" ERR 24 ", 3.9),
    Sort(b"DEFINE VIEW ", rb"", rb" ERR 27 ", 0.48),
    Sort(b"DEFINE VIEW ", rb"", rb" ERR 41 ", 0.03),
    Sort(b"DEFINE ALIGNMENT ", rb"", rb" ERR 11 ", 4.3),
    Sort(b"DEFINE ALIGNMENT ", rb"", rb" ERR 12 ", 2.8),
    Sort(b"DEFINE ALIGNMENT ", rb"", rb" ERR 20 ", 0.5),
    Sort(b"DEFINE ALIGNMENT ", rb"INTO +(none|a|PAVE|pav|K9|Start|odd_) ", rb" ERR 20 ", 0.3),
    Sort(b"DEFINE ALIGNMENT ", rb"", rb" ERR 24 ", 2.9),
    Sort(b"DEFINE ALIGNMENT ", rb"", rb" ERR 27 ", 0.05, "65 pieces"),
    Sort(b"DEFINE ALIGNMENT ", rb"^[^,]*$", rb" ERR 27 ", 0.03),
    Sort(b"DEFINE ALIGNMENT ", rb"", rb" ERR 30 ", 0.72),
    Sort(b"DEFINE ALIGNMENT ", rb"", rb" ERR 30 ", 0.25, "backwards"),
    Sort(b"DEFINE ALIGNMENT ", rb"", rb" ERR 31 ", 0.3),
    Sort(b"DEFINE ALIGNMENT ", rb"", rb" ERR 31 ", 0.2, "backwards"),
    Sort(b"DROP ALIGNMENT ", rb"", rb" ERR 21 ", 1),
    Sort(b"DROP ALIGNMENT ", rb"", rb" ERR 23 ", 0.03),
    Sort(b"DROP ROUTE ", rb"", rb" ERR 23 ", 0.2, "in an alignment"),
    Sort(b"DROP ROUTE ", rb"", rb" ERR 20 ", 1.2),
    Sort(b"DROP ROUTE ", rb"", rb" ERR 23 ", 2.7),
    Sort(b"DROP TABLE ", rb"", rb" ERR 21 ", 0.97),
    Sort(b"DROP TABLE ", rb"", rb" ERR 23 ", 1.1),
    Sort(b"DROP VIEW ", rb"", rb" ERR 21 ", 4.5),
    Sort(b"DROP VIEW ", rb"", rb" ERR 23 ", 0.1),
    Sort(b"DROP REFERENT ", rb"", rb" ERR 23 ", 0.66),
    Sort(b"DROP REFERENT ", rb"", rb" ERR 25 ", 0.22),
    Sort(b"INSERT ", rb"", rb" ERR 20 ", 2.7),
    Sort(b"INSERT ", rb"", rb" ERR 21 ", 2.6),
    Sort(b"INSERT ", rb"", rb" ERR 25 ", 4.7),
    Sort(b"INSERT ", rb"", rb" ERR 30 ", 2.7),
    Sort(b"INSERT ", rb"", rb" ERR 31 ", 2.6),
    Sort(b"INSERT ", rb"", rb" ERR 32 ", 0.92),
    Sort(b"SELECT ", rb"GAPS\b", rb" ERR 32 ", 0.3),
    Sort(b"INSERT ", rb"", rb" ERR 33 ", 3.4),
    Sort(b"REMOVE ", rb"", rb" ERR 20 ", 0.88),
    Sort(b"REMOVE ", rb"", rb" ERR 21 ", 0.65),
    Sort(b"REMOVE ", rb"", rb" ERR 22 ", 0.2),
    Sort(b"REMOVE ", rb"", rb" ERR 25 ", 1.4),
    Sort(b"REMOVE ", rb"", rb" ERR 30 ", 0.66),
    Sort(b"REMOVE ", rb"", rb" ERR 31 ", 0.98),
    Sort(b"REMOVE ", rb"", rb" ERR 33 ", 0.09),
    Sort(b"SELECT ", rb"", rb" ERR 20 ", 0.8, "query"),
    Sort(b"SELECT ", rb"", rb" ERR 21 ", 4.8, "query"),
    Sort(b"SELECT ", rb"", rb" ERR 22 ", 2.3, "query"),
    Sort(b"SELECT ", rb"", rb" ERR 25 ", 1.2, "query"),
    Sort(b"SELECT ", rb"", rb" ERR 27 ", 0.4, "query"),
    Sort(b"SELECT ", rb"", rb" ERR 30 ", 0.87, "query"),
    Sort(b"SELECT ", rb"", rb" ERR 31 ", 0.38, "query"),
    Sort(b"SELECT ", rb"", rb" ERR 33 ", 1.1, "query"),
    Sort(b"SELECT ", rb"", rb" ERR 40 ", 0.86, "query"),
    Sort(b"SELECT ", rb"", rb" ERR 41 ", 1, "query"),
    Sort(b"SELECT ", rb"", rb" ERR 42 ", 0.63, "query"),
    Sort(b"SELECT ", rb"^SELECT +TRANSFORM *\( *\w+ *,", rb" ERR 21 ", 0.3, "query"),
    Sort(b"TOTAL ", rb"", rb" ERR 11 ", 1.4),
    Sort(b"TOTAL ", rb"", rb" ERR 12 ", 0.12),
    Sort(b"TOTAL ", rb"", rb" ERR 21 ", 0.88),
    Sort(b"TOTAL ", rb"", rb" ERR 25 ", 0.09),
    Sort(b"TOTAL ", rb"", rb" ERR (20|27|30|31|40|42) ", 0.5),
    # Of these the query has no operator that can be refused by the same number.
    Sort(b"TOTAL ", UNCHOSEN + rb"BY *\([^)]*\bnone\b", rb" ERR 22 ", 0.94),
    Sort(b"TOTAL ", UNCHOSEN + rb"BY *\((?![^)]*\bnone\b).*SUM *(none|N)\b", rb" ERR 22 ", 0.33),
    Sort(b"TOTAL ", UNPAIRED + rb"BY *\([^)]*\b(\w+)\b[^)]*, *\1\b", rb" ERR 41 ", 0.61),
    Sort(b"TOTAL ", rb"^(?!.*WHERE).*\bSUM\b", rb" ERR 33 ", 0.31),
    Sort(b"DEFINE INDEX ", rb"", rb" ERR 21 ", 0.97),
    Sort(b"DEFINE INDEX ", rb"", rb" ERR 22 ", 1.4),
    Sort(b"DEFINE INDEX ", rb"", rb" ERR 24 ", 2.3),
    Sort(b"DEFINE INDEX ", rb"", rb" ERR 27 ", 0.09),
    Sort(b"DROP INDEX ", rb"", rb" ERR 21 ", 0.77),
    Sort(b"DROP INDEX ", rb"", rb" ERR 23 ", 1.5, "beside a cursor"),
    Sort(b"DROP TABLE ", rb"", rb" ERR 23 ", 1.9, "beside a cursor"),
    Sort(b"DROP ROUTE ", rb"", rb" ERR 23 ", 1.8, "beside a cursor"),
    Sort(b"EXPLAIN ", rb"", rb" ERR 11 ", 5.7),
    Sort(b"EXPLAIN ", rb"", rb" ERR 21 ", 5.4),
    Sort(b"EXPLAIN ", rb"", rb" ERR 22 ", 2.4),
    Sort(b"EXPLAIN ", rb"", rb" ERR 27 ", 0.4),
    Sort(b"EXPLAIN ", rb"", rb" ERR (20|25|30|31) ", 3.4),
    Sort(b"EXPLAIN ", rb"", rb" ERR 33 ", 1.1),
    Sort(b"EXPLAIN ", rb"", rb" ERR (40|41|42) ", 2.6),
    Sort(b"OPEN ", rb"", rb" ERR 11 ", 3.9),
    Sort(b"OPEN ", rb"", rb" ERR 21 ", 0.98),
    Sort(b"OPEN ", rb"", rb" ERR (20|22|25|27|30|31|33|40|41|42) ", 1.3),
    Sort(b"FETCH ", rb"", rb" ERR 11 ", 1.9),
    Sort(b"FETCH ", rb"", rb" ERR 12 ", 2.8),
    Sort(b"FETCH ", rb"", rb" ERR 60 ", 6),
    Sort(b"CLOSE ", rb"", rb" ERR 60 ", 1.2),
    # Lines and sessions.
    Sort(b"", rb"", rb"^[1-9]\d OK \d+$", 47),
    Sort(b"", rb"", OK, 29, "session in two digits"),
    Sort(b"", rb"", OK, 14, "CR"),
    Sort(b"", rb"", OK, 1.1, "4095 bytes"),
    Sort(b"", rb"", OK, 1.0, "4096 bytes"),
    Sort(b"", rb"", rb" ERR 11 syntax at \d\d\d\d$", 0.8),
    Sort(b"", rb"", rb" ERR 2 ", 0.4, "4097 bytes"),
    Sort(b"", rb"", rb" ERR 1 ", 7, "bad bytes"),
    Sort(b"", rb"", rb" ERR 3 ", 5, "bad session"),
    Sort(b"", rb"", OK, 20, "tight"),
    Sort(b"", rb"  ", OK, 40),
]

# Where many cursors are kept open (cursor_lines.py).
CURSOR_SORTS = [
    Sort(b"FETCH ", rb"", ROW, 40),
    Sort(b"FETCH ", rb"", ROW, 30, "late"),
    Sort(b"FETCH ", rb"", ROW, 8, "very late"),
    Sort(b"FETCH ", rb"", rb"@K", 1, "very late"),
    Sort(b"FETCH ", rb"", ROW, 25, "all open"),
    Sort(b"FETCH ", rb"", rb" ERR 12 ", 0.5),
    Sort(b"FETCH ", rb"", rb" ERR 60 ", 3),
    Sort(b"OPEN ", rb"", OK, 6),
    Sort(b"OPEN ", rb"", rb" ERR 61 ", 0.3),
    Sort(b"CLOSE ", rb"", OK, 4),
    Sort(b"INSERT ", rb"", OK, 60),
    Sort(b"REMOVE ", rb"", SOME, 6),
    Sort(b"MOVE REFERENT ", rb"", OK, 20),
    Sort(b"DEFINE VIEW ", rb"", OK, 5, "again"),
    Sort(b"DEFINE ALIGNMENT ", rb"", OK, 5, "again"),
    Sort(b"DEFINE INDEX ", rb"", OK, 0.1, "again"),
    Sort(b"DROP TABLE ", rb"", rb" ERR 23 ", 0.3),
    Sort(b"DROP INDEX ", rb"", rb" ERR 23 ", 0.3),
    Sort(b"SAVE", rb"", OK, 2),
    Sort(b"REOPEN", rb"", OK, 0.02),
]


def patterns_of(sorts):
    return [(sort, re.compile(sort.holds), re.compile(sort.answer, re.MULTILINE)) for sort in sorts]


def sorts_of(patterns, line, marks, reply):
    """The places of the sorts that a line (without its LF) is of."""
    text = re.sub(rb"^\d+ ", b"", line).rstrip(b"\r")
    words = text.lstrip(b" ")
    found = []
    for place, (sort, holds, answer) in enumerate(patterns):
        if (sort.mark is None or sort.mark in marks) and words.startswith(sort.begins):
            if holds.search(text) and answer.search(reply):
                found.append(place)
    return found


LENGTH_AND_WEIGHT = re.compile(rb" ROW (?:.* )?([\d.]+) ([\d.]+) -?[\d.]+$", re.MULTILINE)


def marks_of_totals(reply):
    """What ROW lines say that end in a length, a weight and a sum: whether a group has two rows at one place."""
    is_so = any(float(weight) > float(length) for length, weight in LENGTH_AND_WEIGHT.findall(reply))
    return frozenset(["more values than places"] if is_so else [])


class Tally:
    """How many lines of each sort were answered, how many there were in all, and how they were answered."""

    def __init__(self, sorts=SORTS):
        self.sorts = sorts
        self.patterns = patterns_of(sorts)
        self.lines = 0
        self.seen = Counter()
        self.answers = Counter()
        self.queries = Counter()

    def count(self, line, marks, reply):
        self.lines += 1
        self.seen.update(sorts_of(self.patterns, line, marks | marks_of_totals(reply), reply))
        answer = kind_of_answer(reply)
        self.answers[answer] += 1
        if "query" in marks:
            self.queries["all"] += 1
            self.queries["accepted"] += answer == "OK"
            self.queries["with rows"] += b" ROW " in reply

    def add(self, other):
        self.lines += other.lines
        for mine, others in ((self.seen, other.seen), (self.answers, other.answers), (self.queries, other.queries)):
            mine.update(others)

    def table(self):
        """For each sort how many lines were of it, and how many had to be."""
        return [(sort, self.seen[place], sort.least * self.lines / 1000) for place, sort in enumerate(self.sorts)]

    def summary(self):
        """How many lines were accepted or got each refusal, and what became of the queries with operators."""
        refused = sorted((int(answer), count) for answer, count in self.answers.items() if answer != "OK")
        told = ["%d accepted" % self.answers["OK"]] + ["%d by %d" % (count, number) for number, count in refused]
        queries = [self.queries[part] for part in ("all", "accepted", "with rows")]
        return "%s; %d queries with operators, %d accepted, %d with rows" % (", ".join(told), *queries)


def kind_of_answer(reply):
    """OK, or the number of the refusal."""
    parts = reply.splitlines()[-1].split(b" ")
    return "OK" if parts[1] == b"OK" else parts[2].decode()
