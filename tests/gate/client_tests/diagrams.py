"""Tests of the diagrams: tests/gate/clients.py runs them beside its own.

A picture is read as XML, and looked at by its numbers: where its spans, marks, lines and texts are. How wide a text is is
told by the widths of DejaVu Sans, which are here and not in clients/python. How colours look to an eye without one sort of
cones is told by the matrices of Machado, Oliveira and Fernandes (2009).
"""

import itertools
import math
import os
import random
import re
import subprocess
import sys
import xml.etree.ElementTree as ElementTree
from decimal import Decimal as D
from typing import NamedTuple

from client_parts import CLIENTS, NETWORK, SEED, expect_error, network, roadseg
from harness import Wrong, expect
from runs import LONGEST

import diagram  # of the clients, whose folder client_parts names
import labels
from prepared import seconds
from roadseg import colours, elements, picture

SVG = "{http://www.w3.org/2000/svg}"

# The widths of the characters 32 to 126 in DejaVu Sans, in thousandths of the size of letters, and of bold ones at most.
WIDTHS = """318 401 460 838 636 950 780 275 390 390 500 838 318 361 318 337 636 636 636 636 636 636 636 636 636 636 337 337
838 838 838 531 1000 684 686 698 770 632 575 775 752 295 295 656 557 863 748 787 603 787 695 635 611 732 684 989 685 611
685 390 337 390 838 500 500 613 635 550 615 615 352 635 634 278 278 579 278 974 634 612 635 635 411 521 392 634 592 818 592
592 525 636 337 636 838"""
WIDTHS = dict(zip(map(chr, range(32, 127)), map(int, WIDTHS.split())))
BOLD = 1.12
ASCENT, DESCENT = 0.76, 0.24


# Pictures, read.


class Box(NamedTuple):
    left: float
    top: float
    right: float
    bottom: float

    def overlaps(self, other):
        return self.left < other.right and other.left < self.right and self.top < other.bottom and other.top < self.bottom


def box_of_text(text):
    size = float(text.get("font-size", "11"))
    width = sum(WIDTHS.get(c, 1000) for c in text.text) * size / 1000 * (BOLD if text.get("font-weight") else 1)
    left = float(text.get("x")) - {"start": 0, "middle": width / 2, "end": width}[text.get("text-anchor", "start")]
    y = float(text.get("y"))
    return Box(left, y - ASCENT * size, left + width, y + DESCENT * size)


def box_of_rect(rect):
    x, y, width, height = (float(rect.get(name)) for name in ("x", "y", "width", "height"))
    return Box(x, y, x + width, y + height)


def box_of_polygon(polygon):
    xs, ys = zip(*(map(float, point.split(",")) for point in polygon.get("points").split()))
    return Box(min(xs), min(ys), max(xs), max(ys))


class Read:
    """The elements of a picture: those with a title are spans, marks of points, and marks of referents."""

    def __init__(self, svg):
        self.root = ElementTree.fromstring(svg)
        self.texts = list(self.root.iter(SVG + "text"))
        self.spans = [rect for rect in self.root.iter(SVG + "rect") if title_of(rect)]
        polygons = [polygon for polygon in self.root.iter(SVG + "polygon") if title_of(polygon)]
        self.marks = [polygon for polygon in polygons if polygon.get("stroke")]
        self.referents = [polygon for polygon in polygons if not polygon.get("stroke")]
        self.lines = list(self.root.iter(SVG + "line"))
        self.size = Box(0, 0, float(self.root.get("width")), float(self.root.get("height")))

    def labels_like(self, pattern):
        """The labels that are like this, without those of the legend, which begins with the second bold title."""
        titles = [text for text in self.texts if text.get("font-weight") and text.get("x") == "18"]
        top = float(titles[1].get("y")) - 5
        return [text.text for text in self.texts if re.fullmatch(pattern, text.text) and float(text.get("y")) < top]

    def dashed(self):
        """Where the lines of referents are."""
        return [float(line.get("x1")) for line in self.lines if line.get("stroke-dasharray")]

    def notes(self):
        return " ".join(text.text for text in self.texts if text.get("fill") and text.get("x") != "18")

    def has(self, text):
        return any(one.text == text for one in self.texts)


def title_of(element):
    title = element.find(SVG + "title")
    return None if title is None else title.text


def expect_apart(what, boxes):
    """Expects that no two boxes overlap: they are looked at from the left."""
    boxes = sorted(boxes, key=lambda named: named[1].left)
    for place, (name, box) in enumerate(boxes):
        for other_name, other in boxes[place + 1 :]:
            if other.left >= box.right:
                break
            if box.overlaps(other):
                raise Wrong("%s: %.60r overlaps %.60r" % (what, name, other_name))


def expect_readable(read):
    """Expects that texts overlap no text, no mark, and no line that leads to another one, and are within the picture."""
    texts = [(text.text, box_of_text(text)) for text in read.texts]
    marks = [(title_of(mark), box_of_polygon(mark)) for mark in read.marks]
    expect_apart("texts", texts)
    expect_apart("marks and texts", [*marks, *texts])
    for referent in read.referents:
        for name, box in texts:
            expect("whether a referent's mark is on %.60r" % name, box.overlaps(box_of_polygon(referent)), False)
    for name, box in texts:
        inside = box.left >= 0 and box.top >= 0 and box.right <= read.size.right and box.bottom <= read.size.bottom
        expect("whether %.60r is within the picture" % name, inside, True)
    for line in read.lines:
        x1, y1, x2, y2 = (float(line.get(name)) for name in ("x1", "y1", "x2", "y2"))
        if line.get("stroke-dasharray") or line.get("stroke") == elements.GRID:
            continue
        for name, box in texts:
            if box.overlaps(Box(min(x1, x2) - 0.1, y1 + 0.1, max(x1, x2) + 0.1, max(y2 - 2, y1 + 0.2))):
                raise Wrong("a line crosses %.60r" % name)


# Rows to draw.


def measure(k):
    return (D(k) / 1000).quantize(D("0.001"))


def touching_spans(chance, count, end, values):
    cuts = [0, *sorted(chance.sample(range(1, end), count - 1)), end]
    return [("R", measure(lo), measure(hi), *values(k)) for k, (lo, hi) in enumerate(zip(cuts, cuts[1:]))]


def crowded_bands():
    """Bands of 200 spans each, of spans that overlap, and of points, some of them at one place."""
    chance = random.Random(SEED)
    surfaces = ("asphalt", "concrete", "gravel", "chip seal", "brick", "sett", "dirt", "ice", "sand")
    overlapping = [(lo := chance.randrange(39_000), lo + chance.randrange(1, 1_000), k) for k in range(60)]
    points = sorted((chance.choice([chance.randrange(40_001), 12_500]), k) for k in range(200))
    return [
        diagram.Band("Pavement", touching_spans(chance, 200, 40_000, lambda k: (chance.choice(surfaces), 1980 + k % 40)), 1),
        diagram.Band("Traffic", touching_spans(chance, 200, 40_000, lambda k: (1_000 + 37 * k,))),
        diagram.Band("Few", touching_spans(chance, 12, 40_000, lambda k: (chance.choice(surfaces), None))),
        diagram.Band("Zones", [("R", measure(lo), measure(hi), "WZ%d" % k) for lo, hi, k in overlapping]),
        diagram.Band("Crashes", [("R", measure(at), k, ("injury", "fatal", None)[k % 3]) for at, k in points], 2),
        diagram.Band("Signs", [("R", measure(at), "STOP") for at in range(500, 40_000, 1_700)]),
        diagram.Band("Nothing", []),
    ]


def crowded_referents():
    places = sorted(random.Random(SEED).sample(range(40_001), 40))
    return [diagram.Referent("REFERENT_%d" % k, place) for k, place in enumerate(places)]


def crowded():
    return diagram.draw("R", 0, 40_000, crowded_bands(), crowded_referents(), "miles")


# Tests.


def texts_of_200_spans_do_not_overlap(_program):
    for width in (400, 700, 1100, 2400):
        expect_readable(Read(diagram.draw("R", 0, 40_000, crowded_bands(), crowded_referents(), "miles", width)))
    points = [("R", measure(at), k) for k, at in enumerate(sorted(random.Random(SEED).choices(range(40_001), k=3_000)))]
    expect_readable(Read(diagram.draw("R", 0, 40_000, [diagram.Band("Points", points)])))
    for count in (1, 2, 5, 20, 50, 100):
        spans = touching_spans(random.Random(count), count, 40_000, lambda k: ("a surface", 10**k % 10_007))
        expect_readable(Read(diagram.draw("R", 0, 40_000, [diagram.Band("Spans", spans)])))


def what_is_left_out_is_counted(_program):
    read = Read(crowded())
    notes = read.notes()
    for title, pattern, whole in (
        ("Pavement", r"[a-z ]+, \d+", 200),
        ("Traffic", r"\d{4}", 200),
        ("Zones", r"WZ\d+", 60),
        ("Crashes", r"\d+, ([a-z]+|NULL)", 200),
        ("Signs", "STOP", 24),
    ):
        shown = len(read.labels_like(pattern))
        expect("whether some labels of %s are shown" % title, shown > 0, True)
        expect("labels of %s" % title, shown + counted(title + r" (\d+) of %d\b" % whole, notes), whole)
    names = len(read.labels_like(r"REFERENT_\d+ [\d.]+"))
    expect("names of referents", names + counted(r"(\d+) of 40 names are left out", notes), len(read.referents))
    piled = sum(int(text) for text in read.labels_like(r"\+\d+"))
    expect("points that are only counted", counted(r"as \+N, for want of room: Crashes (\d+) of 200", notes), piled)
    crashes = [mark for mark in read.marks if re.match(r"R [\d.]+: \d+ ", title_of(mark))]
    expect("points that are drawn or counted", len(crashes) + piled, 200)
    small = diagram.draw("R", 0, 1_000, [diagram.Band("One", [("R", D("0.000"), D("1.000"), "x")])])
    expect("notes where nothing is left out", Read(small).notes(), "")


def counted(pattern, notes):
    """The number that the notes say, or 0."""
    found = re.search(pattern, notes)
    return int(found[1]) if found else 0


def each_row_has_its_values_as_a_title(_program):
    read = Read(crowded())
    wanted = []
    for band in crowded_bands()[:4]:
        for _route, lo, hi, *values in band.rows:
            wanted.append("R %s to %s: %s" % (lo, hi, " ".join(map(roadseg.literal, values))))
    expect("titles of spans", sorted(map(title_of, read.spans)), sorted(wanted))
    expect("how many they are", len(wanted), 472)


def spans_and_marks_are_at_their_measures(_program):
    lines = [("R", measure(lo), measure(hi), lo) for lo, hi in ((5_000, 5_001), (5_001, 7_000), (9_000, 15_000))]
    points = [("R", measure(at), at) for at in (5_000, 6_250, 15_000)]
    bands = [diagram.Band("Lines", lines), diagram.Band("Points", points)]
    read = Read(diagram.draw("R", 5_000, 15_000, bands, [diagram.Referent("MID", 10_000)]))
    axis = next(line for line in read.lines if line.get("y1") == line.get("y2"))
    left, right = float(axis.get("x1")), float(axis.get("x2"))

    def x(place):
        return left + (right - left) * (place - 5_000) / 10_000

    wanted = [(x(5_000), x(5_000) + 1), (x(5_001), x(7_000)), (x(9_000), x(15_000))]
    expect_near("spans", [(box.left, box.right) for box in map(box_of_rect, read.spans)], wanted)
    middles = [((box.left + box.right) / 2,) for box in map(box_of_polygon, read.referents + read.marks)]
    expect_near("marks", middles, [(x(10_000),), (x(5_000),), (x(6_250),), (x(15_000),)])
    ticks = {text.text: float(text.get("x")) for text in read.texts if text.text in ("6", "10", "14")}
    expect_near("ticks", [tuple(ticks.values())], [(x(6_000), x(10_000), x(14_000))])
    expect_near("the referent's line", [tuple(read.dashed())], [(x(10_000),)])
    expect("the note on the first span", "drawn a pixel wide: 1." in read.notes(), True)


def expect_near(what, got, wanted):
    numbers = [(a, b) for one, other in zip(got, wanted) for a, b in zip(one, other)]
    shapes = [[len(one) for one in many] for many in (got, wanted)]
    if shapes[0] != shapes[1] or any(abs(a - b) >= 0.02 for a, b in numbers):
        raise Wrong("%s: wanted %.300r, got %.300r" % (what, wanted, got))


def a_part_of_a_route_is_cut_out(_program):
    lines = [("R", measure(lo), measure(lo + 1_000), "L%d" % lo) for lo in range(0, 10_000, 1_000)]
    points = [("R", measure(at), "P%d" % at) for at in (0, 2_499, 2_500, 3_000, 4_500, 4_501)]
    read = Read(diagram.draw("R", 2_500, 4_500, [diagram.Band("Lines", lines), diagram.Band("Points", points)]))
    expect("spans", [title_of(span)[-7:] for span in read.spans], ["'L2000'", "'L3000'", "'L4000'"])
    expect("marks", [title_of(mark)[-7:] for mark in read.marks], ["'P2500'", "'P3000'", "'P4500'"])
    widths = [box.right - box.left for box in map(box_of_rect, read.spans)]
    expect_near("widths", [widths], [[widths[1] / 2, widths[1], widths[1] / 2]])
    read = Read(diagram.draw("R", 2_000, 4_000, [diagram.Band("Lines", lines)]))
    expect("spans that touch the part", [title_of(span)[-7:] for span in read.spans], ["'L2000'", "'L3000'"])
    expect_error(ValueError, diagram.draw, "R", 5, 5, [])
    expect_error(ValueError, diagram.draw, "R", 0, 5, [], [], "", 399)


def labels_keep_off_the_lines_of_referents(_program):
    rows = [("R", measure(lo), measure(hi), "a label") for lo, hi in ((0, 4_000), (4_000, 10_000))]
    referents = [diagram.Referent("A", 2_000), diagram.Referent("B", 7_000), diagram.Referent("C", 7_100)]
    read = Read(diagram.draw("R", 0, 10_000, [diagram.Band("Lines", rows)], referents))
    boxes = [box_of_text(text) for text in read.texts if text.text == "a label"]
    lines = read.dashed()
    expect("labels and lines", (len(boxes), len(lines)), (3, 3))  # the third is in the legend
    expect("labels on a line", [x for x in lines for box in boxes[:2] if box.left < x < box.right], [])


def texts_are_not_wider_than_is_thought(_program):
    for character, width in WIDTHS.items():
        is_wide = labels.text_width(character, 1000) >= width and labels.bold_width(character, 1000) >= width * BOLD
        expect("whether %r is thought to be as wide" % character, is_wide, True)
    expect("a text of both", labels.text_width("ab", 10), labels.text_width("a", 10) + labels.text_width("b", 10))
    for width in (10, 50, 100, 1000):
        short = labels.shortened("WZ10, closed", width)
        expect("whether %r has room in %d" % (short, width), labels.text_width(short) <= width or short == "…", True)
    expect("what has room", short, "WZ10, closed")


def spans_and_marks_at_one_place_lie_below_each_other(_program):
    read = Read(crowded())
    zones = [(title_of(span), box_of_rect(span)) for span in read.spans if "'WZ" in title_of(span)]
    expect("how many spans", len(zones), 60)
    # the narrowest are drawn up to a pixel wider than they are
    expect_apart("spans", [(name, box._replace(right=box.right - 1.01)) for name, box in zones])
    expect("whether some lie below others", len({box.top for _name, box in zones}) > 1, True)
    expect_apart("marks", [(title_of(mark), box_of_polygon(mark)) for mark in read.marks])


NASTY = ["<b>&amp;</b>", "]]>", "\"quoted\" 'too'", "two  blanks ", " \u2028\x85", "\ufffe\uffff", "é道𝄞", "&#0;"]


def texts_are_escaped(_program):
    bands = [diagram.Band(text, [("R", D("0.000"), D("9.000"), text)]) for text in NASTY]
    bands += [diagram.Band("Points", [("R", measure(900 * k), text) for k, text in enumerate(NASTY)])]
    read = Read(diagram.draw("R", 0, 9_000, bands, [], "<miles> & \x01"))
    kept = [re.sub("[\x85\u2028\ufffe\uffff]", "\ufffd", text) for text in NASTY]
    for text in kept:
        expect("whether %r is a label" % text, read.has(text), True)
        title = "R 0.000 to 9.000: " + roadseg.literal(text)
        expect("titles", [title_of(span) for span in read.spans].count(title), 1)
    expect("the picture's title", title_of(read.root), "R, 0.000 to 9.000 <miles> & \ufffd")
    tags = {element.tag.removeprefix(SVG) for element in read.root.iter()}
    expect("elements", tags, {"svg", "title", "defs", "pattern", "path", "rect", "line", "polygon", "g", "text"})
    expect("how blanks are kept", read.root.get("{http://www.w3.org/XML/1998/namespace}space"), "preserve")


# Colours, in linear light.

EYES = {
    "all cones": ((1, 0, 0), (0, 1, 0), (0, 0, 1)),
    "no first cones": ((0.152286, 1.052583, -0.204868), (0.114503, 0.786281, 0.099216), (-0.003882, -0.048116, 1.051998)),
    "no second cones": ((0.367322, 0.860646, -0.227968), (0.280085, 0.672501, 0.047413), (-0.011820, 0.042940, 0.968881)),
    "no third cones": ((1.255528, -0.076749, -0.178779), (-0.078411, 0.930809, 0.147602), (0.004733, 0.691367, 0.303900)),
}


def light_of(colour):
    parts = (int(colour[place : place + 2], 16) / 255 for place in (1, 3, 5))
    return [part / 12.92 if part <= 0.04045 else ((part + 0.055) / 1.055) ** 2.4 for part in parts]


def seen(colour, eye):
    """The colour as L*a*b* by an eye."""
    r, g, b = (min(1, max(0, sum(map(float.__mul__, map(float, row), light_of(colour))))) for row in EYES[eye])
    xyz = (
        (0.4124 * r + 0.3576 * g + 0.1805 * b) / 0.9505,
        0.2126 * r + 0.7152 * g + 0.0722 * b,
        (0.0193 * r + 0.1192 * g + 0.9505 * b) / 1.089,
    )
    x, y, z = (part ** (1 / 3) if part > 216 / 24389 else (24389 / 27 * part + 16) / 116 for part in xyz)
    return 116 * y - 16, 500 * (x - y), 200 * (y - z)


def contrast(one, other):
    light = sorted(sum(map(float.__mul__, (0.2126, 0.7152, 0.0722), light_of(colour))) + 0.05 for colour in (one, other))
    return light[1] / light[0]


def colours_are_told_apart_by_every_eye(_program):
    for many in ((*colours.COLOURS, colours.GREY), (*colours.COLOURS, colours.UNKNOWN), colours.STEPS):
        for eye, (one, other) in itertools.product(EYES, itertools.combinations(many, 2)):
            distance = math.dist(seen(one, eye), seen(other, eye))
            expect("whether an eye with %s tells %s from %s (%.1f)" % (eye, one, other, distance), distance >= 17, True)
    classes = [one.style for one in colours.Scheme(range(6)).classes]
    styles = [*colours.STYLES, colours.OTHER, colours.NONE, *classes]
    for style in styles:
        found = contrast(style.fill, style.ink)
        expect("whether letters are read on %s (%.1f)" % (style.fill, found), found >= 4.5, True)
    for what in ("hatch", "shape"):
        told = {(style.fill, getattr(style, what)) for style in styles}
        expect("styles told apart by colour and %s" % what, len(told), len(styles))
    expect("hatches and shapes", (len({*elements.HATCHES}), len({*elements.SHAPES})), (8, 8))
    expect("steps from light to dark", sorted(colours.STEPS, key=lambda one: -seen(one, "all cones")[0]), list(colours.STEPS))


def colours_stand_for_values(_program):
    rows = [("R", measure(k * 1_000), measure(k * 1_000 + 1_000), name, k) for k, name in enumerate("dbdcb")]
    scheme = colours.Scheme("abcd")
    bands = [diagram.Band("By name", rows, 1, scheme), diagram.Band("By number", rows, 2), diagram.Band("As it is", rows)]
    read = Read(diagram.draw("R", 0, 5_000, bands))
    fills = [span.get("fill") for span in read.spans]
    wanted = [colours.COLOURS[k] for k in (3, 1, 3, 2, 1)]
    expect("by the values of the whole column", fills[:5], wanted)
    expect("by numbers", fills[5:10], [colours.STEPS[k] for k in (0, 1, 2, 3, 5)])
    expect("by the first of what is there", fills[10:], [colours.COLOURS[k] for k in (2, 0, 2, 1, 0)])
    expect("the legend", [read.has(text) for text in ("b", "c", "d", "0", "4", "a", "7")], [True] * 5 + [False] * 2)
    for column in (0, 3):
        expect_error(ValueError, diagram.draw, "R", 0, 5_000, [diagram.Band("By none", rows, column)])
    none = Read(diagram.draw("R", 0, 5_000, [diagram.Band("None", [row[:3] for row in rows])]))
    expect("rows without values", ({span.get("fill") for span in none.spans}, none.has("a row")), ({colours.GREY}, True))


def hatches_tell_many_values_apart(_program):
    values = ["V%02d" % k for k in range(60)]
    rows = [("R", measure(k * 100), measure(k * 100 + 100), value) for k, value in enumerate([*values, None])]
    read = Read(diagram.draw("R", 0, 6_100, [diagram.Band("Many", rows)], (), "", 2_400))
    fills = [span.get("fill") for span in read.spans]
    expect("fills", len(set(fills[:49])), 49)
    expect("those without a hatch", fills[:7], list(colours.COLOURS))
    expect("what has none of its own", set(fills[49:60]), {colours.GREY})
    expect("in the legend", (read.has("11 other values"), read.has("NULL")), (True, True))
    named = {"url(#%s)" % pattern.get("id") for pattern in read.root.iter(SVG + "pattern")}
    expect("the hatches that are there", named, {fill for fill in fills if fill.startswith("url")})
    plates = [rect for rect in read.root.iter(SVG + "rect") if rect.get("height") == "14"]
    expect("plain grounds of labels on hatches", len(plates), len(read.labels_like("V[0-9]+")) - 18)


def numbers_have_classes(_program):
    for numbers, wanted in (
        ([5], ["5"]),
        ([2, 4], ["2", "4"]),
        ([-3, 0, 1, 2, 3, 9], ["-3", "0", "1", "2", "3", "9"]),
        (range(1950, 2020), ["1950 to 1959", "1960 to 1979", "1980 to 1999", "2000 to 2019"]),
        (range(7), ["0 to 1", "2 to 3", "4 to 5", "6"]),
        ([1, 2, 3, 4, 5, 6, 7, 8, 9, 10, 11, 100_000], ["1 to 2", "3 to 4", "5 to 6", "7 to 8", "9 to 10", "11 to 100000"]),
        ([-(2**63), *range(6), 2**63 - 1], None),
    ):
        scheme = colours.Scheme([*numbers, None])
        legend = scheme.legend([*numbers, None])
        expect("the last of the legend", legend[-1], ("NULL", colours.NONE))
        if wanted is not None:
            expect("classes", [entry.text for entry in legend[:-1]], wanted)
        expect("styles", len({entry.style for entry in legend}), len(legend))
        for number in numbers:
            [one] = [one for one in scheme.classes if one.least <= number <= one.greatest]
            expect("the class of %d" % number, scheme.entry(number), (colours.class_text(one), one.style))


def colours_may_be_given(program):
    given = colours.given_colours(["surface:asphalt=#4477aa", "lanes:2=#00FF00", "surface:a=b:c=#000000"])
    expect("as words", given, {"surface": {"asphalt": "#4477AA", "a=b:c": "#000000"}, "lanes": {"2": "#00FF00"}})
    for word in ("surface", "surface:asphalt", "surface:asphalt=blue", "surface:asphalt=#12345", ":a=#123456", "a b:c=#123456"):
        expect_error(ValueError, colours.given_colours, [word])
    scheme = colours.Scheme([1, 2, 3], given["lanes"])
    expect("of numbers", [scheme.style(k).fill for k in (1, 2, 3)], [colours.STEPS[0], "#00FF00", colours.STEPS[5]])
    with network(program) as road:
        questions = [diagram.Question("Pavement", "pavement")]
        palette = colours.Palette(road, {"surface": given["surface"]})
        read = Read(diagram.diagram(road, "US40", questions, palette=palette))
        expect("in a picture", [span.get("fill") for span in read.spans], [colours.COLOURS[1]] * 2 + ["#4477AA"])
        expect_error(ValueError, colours.Palette, road, given)


def colours_are_the_same_in_every_picture(program):
    """By the values of the whole column, whatever the route, the query and the name that it gives to the column."""
    queries = ("pavement", "RENAME(pavement, surface TO s2)", "OVERLAY(traffic, pavement)", "WHERE(pavement, surface = 'concrete')", "seen")
    with network(program) as road:
        road.execute("DEFINE VIEW seen AS OVERLAY(RENAME(pavement, surface TO s), speed)")
        road.execute("DEFINE LINE TABLE survey (surface TEXT(20), year TEXT(4))")
        road.execute("INSERT INTO survey ON US40 FROM 102.5 TO 103 VALUES ('brick', '1987')")
        wanted = dict(zip(("asphalt", "brick", "concrete"), colours.COLOURS))
        for route, query in itertools.product(("SR12", "US40", "I95"), queries):
            column = 2 if query.startswith("OVERLAY") else 1
            read = Read(diagram.diagram(road, route, [diagram.Question("Q", query, column)]))
            for span in read.spans:
                surface = re.search("'([a-z]+)'", title_of(span))[1]
                expect("%s of %s by %s" % (surface, route, query), span.get("fill"), wanted[surface])
        origins = [colours.origins_of(query, road.schema()) for query in ("seen", "OVERLAY(none, pavement)")]
        expect("what colours go by", origins, [["surface", "year", "mph"], None])
        told = [span.get("fill") for span in Read(diagram.diagram(road, "US40", [diagram.Question("Q", "survey", 2)])).spans]
        expect("a text that looks like a number", told, [colours.COLOURS[0]])


def a_picture_of_a_server_has_the_same_colours(program):
    """Where nothing is known of what is defined, the whole answers tell the values."""
    with network(program) as road:
        questions = [diagram.Question("Pavement", "pavement"), diagram.Question("Crashes", "crashes", 2)]
        wanted = [diagram.diagram(road, route, questions) for route in ("SR12", "I95")]
        road._schema = roadseg.Schema()
        expect("pictures", [diagram.diagram(road, route, questions) for route in ("SR12", "I95")], wanted)


def a_leader_goes_to_each_label_that_is_wider_than_its_span(_program):
    read = Read(crowded())
    boxes = [(title_of(span), box_of_rect(span)) for span in read.spans]
    outside = 0
    for text in read.labels_like(r"WZ\d+|\d{4}|[a-z ]+, (\d+|NULL)"):
        for one in (one for one in read.texts if one.text == text):
            box = box_of_text(one)
            if any(span.left <= box.left and box.right <= span.right and span.top < box.top < span.bottom for _title, span in boxes):
                continue
            lines = [line for line in read.lines if abs(float(line.get("y2")) - (float(one.get("y")) - 9)) < 0.02]
            lines = [float(line.get("x1")) for line in lines if float(line.get("y2")) - float(line.get("y1")) >= picture.LEADER]
            own = [x for x in lines if box.left - 4 <= x <= box.right + 4]
            if not own and float(one.get("y")) > 860:
                continue  # of the legend
            expect("leaders to %s" % text, len(own), 1)
            spans = [title for title, span in boxes if span.left - 1 <= own[0] <= span.right + 1 and span.bottom < box.top + 40]
            value = text.split(", ")[0]
            expect("whether the leader to %s is at its span" % text, any(value in title for title in spans), True)
            outside += 1
    expect("labels outside of spans", outside > 100, True)


def long_titles_are_cut_at_once(_program):
    title = "A band of 5,000 letters, " * 200
    took, svg = seconds(lambda: diagram.draw(title, 0, 1_000, [diagram.Band(title, [("R", D("0.000"), D("1.000"), title)])]))
    expect("whether %.3f seconds are few" % took, took <= 0.1, True)
    expect("the heading", max(len(text.text) for text in Read(svg).texts if text.get("font-size") == "18") < 150, True)


DRAW_AGAIN = "import sys; sys.path[:0] = sys.argv[1:]; import diagrams; sys.stdout.buffer.write(diagrams.crowded().encode())"


def a_picture_is_the_same_each_time(_program):
    wanted = crowded().encode()
    for seed in ("1", "2"):
        words = [sys.executable, "-c", DRAW_AGAIN, *sys.path]
        done = subprocess.run(words, capture_output=True, timeout=LONGEST, env={**os.environ, "PYTHONHASHSEED": seed})
        expect("another process", (done.returncode, done.stdout == wanted), (0, True))


def referents_of_a_route_are_found(program):
    with network(program) as road:
        found = diagram.referents_of(road, "SR12", 0, 14_250)
        expect("of SR12", found, [("BRIDGE", 4_000), ("COUNTY_LINE", 9_100)])
        expect("of I95", diagram.referents_of(road, "I95", 10_000, 22_000), [])
        new = {"AT_START": "0", "BESIDE": "0.001", "BRIDGE_2": "4", "BEFORE": "3.999", "LAST": "14.25"}
        for name, place in new.items():
            road.execute("DEFINE REFERENT SR12 %s AT %s" % (name, place))
        wanted = [("AT_START", 0), ("BESIDE", 1), ("BEFORE", 3_999), *found, ("LAST", 14_250)]
        expect("more of them", diagram.referents_of(road, "SR12", 0, 14_250), wanted)
        expect("of a part", diagram.referents_of(road, "SR12", 1, 4_000), wanted[1:4])
        expect("of a part without any", diagram.referents_of(road, "SR12", 5_000, 9_000), [])


def a_route_is_asked_for_and_drawn(program):
    questions = [diagram.Question("Pavement", "pavement", 1), diagram.Question("Crashes", "crashes")]
    with network(program) as road:
        read = Read(diagram.diagram(road, "US40", questions))
        whole = ["US40 102.500 to 118.000: 'concrete' 1987", "US40 118.000 to 125.050: 'concrete' 2004"]
        expect("spans", [title_of(span) for span in read.spans], [*whole, "US40 125.050 to 131.875: 'asphalt' NULL"])
        crashes = ["US40 112.350: 4 'injury'", "US40 126.000: 5 'property'", "US40 131.875: 6 'property'"]
        expect("marks", [title_of(mark) for mark in read.marks], crashes)
        expect("referents", [title_of(mark) for mark in read.referents], ["EXIT112 112.3"])
        part = Read(diagram.diagram(road, "US40", questions, ("@EXIT112-5", "@EXIT112+5"), "miles"))
        expect("the title of a part", title_of(part.root), "US40, 107.300 to 117.300 miles")
        expect("marks of a part", [title_of(mark) for mark in part.marks], crashes[:1])
        expect_readable(read)


def drawn(program, *words):
    path = os.path.join(CLIENTS, "diagram.py")
    return subprocess.run([sys.executable, path, "--program", program.path, *words], capture_output=True, timeout=LONGEST)


def the_program_of_diagrams_tells_what_fails(program):
    with open(NETWORK, "rb") as file:
        sent = file.read()
    file = program.created()
    expect("the network", program.run("run", "--file", file, sent=sent).status, 0)
    words = ["--file", file, "--route", "SR12", "--band", "Speed", "speed"]
    out, missing = program.file("out.svg"), program.file("missing")
    expect("a picture in a file", drawn(program, *words, "--out", out).returncode, 0)
    done = drawn(program, *words)
    with open(out, "rb") as svg:
        expect("and on standard output", (done.returncode, done.stdout == svg.read(), done.stderr), (0, True, b""))
    for more, said in (
        (["--route", "SR13"], b"diagram: 20 no such route: 0 TRANSLATE SR13 0% AS ABSOLUTE\n"),
        (["--band", "X", "none"], b"diagram: 21 no such name: 0 SELECT WINDOW(none, SR12)\n"),
        (["--part", "4", "4"], b"diagram: nothing lies from 4.000 to 4.000\n"),
        (["--band", "Pavement", "pavement", "3"], b"diagram: a row of Pavement has no value 3\n"),
        (
            ["--file", missing],
            b"diagram: roadseg: cannot open file\nroadseg: %s: no such file (no reply: the other side has closed)\n" % missing.encode(),
        ),
        (["--session", "64"], b"diagram: 64 is no session: 0 to 63 are\n"),
    ):
        done = drawn(program, *words, *more)
        expect(" ".join(more), (done.returncode, done.stdout, done.stderr), (1, b"", said))
    for more in (["--band", "X"], ["--band", "X", "speed", "1", "2"], ["--band", "X", "speed", "y"], ["--port", "1"]):
        expect(" ".join(more), drawn(program, *words, *more).returncode, 2)


DIAGRAM_TESTS = [
    texts_of_200_spans_do_not_overlap,
    what_is_left_out_is_counted,
    each_row_has_its_values_as_a_title,
    spans_and_marks_are_at_their_measures,
    a_part_of_a_route_is_cut_out,
    labels_keep_off_the_lines_of_referents,
    texts_are_not_wider_than_is_thought,
    spans_and_marks_at_one_place_lie_below_each_other,
    texts_are_escaped,
    colours_are_told_apart_by_every_eye,
    colours_stand_for_values,
    hatches_tell_many_values_apart,
    numbers_have_classes,
    colours_may_be_given,
    colours_are_the_same_in_every_picture,
    a_picture_of_a_server_has_the_same_colours,
    a_leader_goes_to_each_label_that_is_wider_than_its_span,
    long_titles_are_cut_at_once,
    a_picture_is_the_same_each_time,
    referents_of_a_route_are_found,
    a_route_is_asked_for_and_drawn,
    the_program_of_diagrams_tells_what_fails,
]
