"""Tests of the pictures of the page, without a browser: node draws them, and they are read as XML. tests/gate/clients.py runs them."""

import math
import re
import xml.etree.ElementTree as ElementTree

from client_parts import running
from diagrams import BOLD, WIDTHS, Box, expect_apart
from harness import expect
from pages import NODE, asked_of, dense, node, page_of, random_network
from prepared import measure


def text_boxes(root):
    for text in root.iter("text"):
        kind = text.get("class").split()
        size = 13 if "title" in kind else 12
        width = sum(WIDTHS.get(c, 1000) for c in text.text or "") * size / 1000 * (BOLD if "name" in kind else 1)
        x, y = float(text.get("x")), float(text.get("y"))
        left = x - width / 2 if "middle" in kind else x - width if "end" in kind else x
        yield text.text, kind, Box(left, y - 0.76 * size, left + width, y + 0.24 * size)


def texts_of_a_page_do_not_overlap(program):
    if NODE is None:
        return
    road, chance = random_network(program, 2, 200)
    with road:
        text, data = page_of(road, asked_of(road, Two="OVERLAY(signs, surfaces)"))
    calls, sizes = [], []
    for r, (_name, start, end, _referents) in enumerate(data["routes"]):
        for width in (300, 500, 900, 1_900):
            for _ in range(3):
                lo, hi = sorted(chance.sample(range(start, end + 1), 2))
                calls.append("picture(%d, %d, %d, %d).svg()" % (r, lo, max(hi, lo + 10), width))
                sizes.append(width)
    for call, width, svg in zip(calls, sizes, node(program, text, calls)):
        root = ElementTree.fromstring(svg)
        boxes = [(words, box) for words, kind, box in text_boxes(root) if set(words or "") <= set(WIDTHS)]
        expect_apart(call, boxes)
        for words, box in boxes:
            inside = box.left >= -1 and box.right <= width + 1 and box.bottom <= float(root.get("height")) + 1
            expect("%s: whether %.40r is within" % (call, words), inside, True)
        spans = [box_of(rect) for rect in root.iter("rect") if rect.get("class") == "span"]
        for words, kind, box in text_boxes(root):
            if "label" in kind and "middle" in kind and set(words) <= set(WIDTHS):
                is_in = any(one.left <= box.left and box.right <= one.right and one.top < box.top < one.bottom for one in spans)
                expect("%s: whether %r is in a span" % (call, words), is_in, True)
        marks = [Box(x - 5, y - 5, x + 5, y + 5) for x, y in marks_of(root)]
        expect_apart("%s: marks" % call, [(str(k), box) for k, box in enumerate(marks)])


def marks_of(root):
    """Where the marks of points are."""
    for path in root.iter("path"):
        if path.get("class") == "mark":
            x, y = re.fullmatch(r"translate\((.*),(.*)\)", path.get("transform")).groups()
            yield float(x), float(y)


def box_of(rect):
    x, y, width, height = (float(rect.get(name)) for name in ("x", "y", "width", "height"))
    return Box(x, y, x + width, y + height)


def names_of_referents_that_are_near_go_down_like_stairs(program):
    if NODE is None:
        return
    places = {"COUNTY_LINE": "10.2", "EXIT1": "11", "EXIT2": "11.4", "BRIDGE": "11.5", "TUNNEL": "42.5"}
    with running(program, "DEFINE ROUTE A FROM 0 TO 60", *("DEFINE REFERENT A %s AT %s" % one for one in places.items())) as road:
        text, _data = page_of(road)
    call = "((one) => [one.svg(), one.notes()])(picture(0, 0, 60000, 1100))"
    [(svg, notes)] = node(program, text, [call])
    names = [(words.split(" ")[0], round(box.top)) for words, kind, box in text_boxes(ElementTree.fromstring(svg)) if "name" in kind]
    expect("the names", [name for name, _top in names], ["COUNTY_LINE", "EXIT1", "EXIT2", "TUNNEL"])
    tops = [top for _name, top in names]
    expect("where they are", (tops[0] < tops[1] < tops[2], tops[3] == tops[0]), (True, True))
    expect("what is told", notes, "Dashed lines are referents. Names of referents without room: 1.")


def spans_of_a_page_are_at_their_measures(program):
    if NODE is None:
        return
    lines = [("A", measure(lo), measure(hi), "v%d" % k) for k, (lo, hi) in enumerate(((0, 3_000), (3_000, 3_001), (5_000, 10_000)))]
    with running(program, "DEFINE ROUTE A FROM 0 TO 10", "DEFINE LINE TABLE t (a TEXT(9))", "DEFINE POINT TABLE p (a INT)") as road:
        road.load("t", lines)
        road.load("p", [("A", measure(at), 1) for at in (0, 4_000, 10_000)])
        text, _data = page_of(road)
    calls = ["(({ left, right }) => [left, right])(picture(0, 0, 10000, 900))", "picture(0, 0, 10000, 900).svg()"]
    calls += ["picture(0, 2990, 3010, 900).svg()", "picture(0, 0, 10000, 900).notes()"]
    (left, right), whole, near, notes = node(program, text, calls)

    def x(place, lo, hi):
        return left + (right - left) * (place - lo) / (hi - lo)

    for svg, lo, hi, wanted in (
        (whole, 0, 10_000, [(0, 3_000), (5_000, 10_000)]),
        (near, 2_990, 3_010, [(2_990, 3_000), (3_000, 3_001)]),
    ):
        root = ElementTree.fromstring(svg)
        spans = [box_of(rect) for rect in root.iter("rect") if rect.get("class") == "span"]
        expect("how many spans", len(spans), len(wanted))
        for box, (start, end) in zip(spans, wanted):
            is_there = abs(box.left - x(start, lo, hi)) < 0.02 and abs(box.right - x(end, lo, hi)) < 0.02
            expect("whether %s to %s is there" % (start, end), is_there, True)
    thin = [box_of(rect) for rect in ElementTree.fromstring(whole).iter("rect") if rect.get("class") == "thin"]
    expect("the thin span", [(box.left, box.right) for box in thin], [(math.floor(x(3_000, 0, 10_000)), math.floor(x(3_000, 0, 10_000)) + 1)])
    marks = [x for x, _y in marks_of(ElementTree.fromstring(whole))]
    expect("how many marks", len(marks), 3)
    expect("marks", all(abs(got - x(at, 0, 10_000)) < 0.02 for got, at in zip(marks, (0, 4_000, 10_000))), True)
    expect("notes", notes, "Rows narrower than 1.5 pixels, drawn together: 1; zoom in to tell them apart.")


def a_dense_route_has_a_small_picture(program):
    """However many rows there are, a picture has some elements for each pixel and lane; and all rows are drawn or counted."""
    if NODE is None:
        return
    with dense(100_000, 30_000) as road:
        text, _data = page_of(road)
    counts = "(({ parts, boxes, lines, thin, piled }) => [parts.length + boxes.length + lines.length, thin, piled])"
    views = ((0, 1_000_000, 5_000, 100_000), (500_000, 510_000, 3_000, 1_000), (500_000, 500_200, 1_000, 0))
    calls = ["%s(picture(0, %d, %d, 1000))" % (counts, lo, hi) for lo, hi, _most, _thin in views]
    for (elements, thin, piled), (_lo, _hi, most, wanted) in zip(node(program, text, calls), views):
        expect("whether %d elements are few" % elements, elements <= most, True)
        expect("whether %d thin spans are those in view" % thin, abs(thin - wanted) <= 2, True)
        expect("whether points are counted", piled > 0 or wanted < 100_000, True)
    [svg, notes, near] = node(program, text, ["picture(0, 0, 1000000, 1000).svg()", "picture(0, 0, 1000000, 1000).notes()", "picture(0, 0, 9000, 1000).svg()"])
    piles = [(words, box) for words, kind, box in text_boxes(ElementTree.fromstring(svg)) if "pile" in kind]
    expect_apart("counts of points", piles)
    expect("what they count", sum(int(words) for words, _box in piles) > 20_000, True)
    expect("lines of referents", [one.count('class="referent') for one in (svg, near)], [0, 28])
    expect("what is told of them", notes.startswith("Referents in view: 3000; zoom in for their dashed lines."), True)


def a_label_is_not_crossed_by_a_referent(program):
    """Where there is no room beside a referent's line, the label has a ground of its own, over the line."""
    if NODE is None:
        return
    lines = ["DEFINE ROUTE A FROM 0 TO 10", "DEFINE REFERENT A MID AT 5", "DEFINE LINE TABLE t (a TEXT(20))"]
    with running(program, *lines, "INSERT INTO t ON A FROM 4.5 TO 5.5 VALUES ('mmmmmmm')") as road:
        text, _data = page_of(road)
    root = ElementTree.fromstring(node(program, text, ["picture(0, 0, 10000, 1200).svg()"])[0])
    [line] = [float(one.get("d")[1:].split(",")[0]) for one in root.iter("path") if one.get("class") == "referent"]
    [plate] = [box_of(one) for one in root.iter("rect") if one.get("class") == "plate"]
    [label] = [box for words, _kind, box in text_boxes(root) if words == "mmmmmmm"]
    expect("whether the line would cross", label.left < line < label.right, True)
    expect("whether the label is on its ground", plate.left <= label.left and label.right <= plate.right, True)
    kinds = [one.get("class") for one in root.iter() if one.get("class") in ("referent", "plate") or one.text == "mmmmmmm"]
    expect("from the back to the front", kinds, ["referent", "plate", "label middle"])


PICTURE_TESTS = [
    texts_of_a_page_do_not_overlap,
    names_of_referents_that_are_near_go_down_like_stairs,
    spans_of_a_page_are_at_their_measures,
    a_dense_route_has_a_small_picture,
    a_label_is_not_crossed_by_a_referent,
]
