"""Tests of the whole script of the page without a browser: node runs it on a stand-in for a document. tests/gate/clients.py runs them.

Where a browser is, tests/gate/client_tests/page_browser.py tries the same in it, and what this can't: how it is laid out and looks.
"""

import json
import os
import subprocess
from decimal import Decimal as D

from client_parts import HERE, network, running
from harness import expect
from pages import NODE, QUESTIONS, asked_of, dense, page_of
from runs import LONGEST

STEPS = os.path.join(HERE, "page_steps.js")
SR12 = "#SR12"


def stepped(program, text, link, *steps):
    """What steps give on a page that was opened by a link."""
    path = program.file("page.html")
    with open(path, "w", encoding="utf-8") as file:
        file.write(text)
    sent = json.dumps({"page": path, "link": link, "steps": steps}).encode()
    done = subprocess.run([NODE, STEPS], input=sent, capture_output=True, timeout=LONGEST)
    expect("what node says", (done.returncode, done.stderr), (0, b""))
    return json.loads(done.stdout)


def paged_network(program):
    road = network(program)
    return (road, *page_of(road, asked_of(road, **QUESTIONS)))


def a_page_opens_where_its_link_says(program):
    if NODE is None:
        return
    road, text, _data = paged_network(program)
    with road:
        for link, heading, place in (
            ("", "I95, 10.000 to 22.000 miles", "Point at the diagram, or move the cross by the arrow keys"),
            ("#none", "I95, 10.000 to 22.000 miles", "Point at the diagram, or move the cross by the arrow keys"),
            (SR12, "SR12, 0.000 to 14.250 miles", "Point at the diagram, or move the cross by the arrow keys"),
            ("#SR12/2.000/6.000/4.000", "SR12, 2.000 to 6.000 miles", "SR12 at 4.000 (@BRIDGE+0.000), kept"),
        ):
            got = stepped(program, text, link, 'text("heading")', 'text("place")', 'find("diagram").attributes["aria-label"]', "location.hash")
            wanted = [heading, place, heading, link if link.startswith(SR12 + "/") else "#" + heading.split(" ")[0].rstrip(",")]
            expect("what is shown by %r" % link, [*got[:3], got[3][: len(wanted[3])]], wanted)
        labels = stepped(program, text, SR12, 'listed("picture", "text")')[0]
        expect("labels of the pavement", [one for one in labels if one[:4] in ("asph", "conc")][:3], ["asphalt, 2011", "concrete", "asphalt, 2019"])
    with running(program) as road:
        text, _data = page_of(road)
        expect("a page of nothing", stepped(program, text, "", 'text("heading")'), ["No routes are defined"])


def keys_bring_the_cross_to_each_change(program):
    if NODE is None:
        return
    road, text, data = paged_network(program)
    with road:
        wanted = {D("4"), D("9.1"), D("14.25")}
        for band in data["bands"]:
            wanted |= {part for row in road.select("WINDOW(%s, SR12)" % band["query"]) for part in row[1:3] if isinstance(part, D) and part}
        steps = ['key("0"), key("Home"), text("place")']
        steps += ['(key("n"), [text("place").split(" ")[2], listed("holds", "b"), listed("holds", "li"), text("spoken")])'] * len(wanted)
        found = stepped(program, text, "#SR12/1/3", *steps, 'key("p"), text("place")', 'key("Escape"), listed("holds", "li")')
        expect("the start", found[0], "SR12 at 0.000 (@START+0.000), kept")
        expect("changes", [D(one[0]) for one in found[1:-2]], sorted(wanted))
        for at, held, _lines, _spoken in found[1:-2]:
            for band in data["bands"]:
                if band["kind"] == "LINE" and D(at) < D("14.25"):
                    query = "WINDOW(%s, SR12 FROM %s TO %s)" % (band["query"], at, D(at) + D("0.001"))
                    expect("%s at %s" % (band["title"], at), held.count(band["title"]), len(list(road.select(query))))
        [bridge] = [one for one in found[1:-2] if one[0] == "4.000"]
        for line in ("crashes 2, fatal 4.000", "pavement asphalt, 2011 0.000 to 7.750", "work_zones WZ7, 1 3.900 to 4.600"):
            expect("whether %s is listed" % line, line in bridge[2], True)
        expect("what is spoken", found[-3][3], "At 14.250: nothing")
        expect("the change before", found[-2], "SR12 at 9.100 (@COUNTY_LINE+0.000), kept")
        expect("without a cross", found[-1], [])


def arrows_go_along_by_steps(program):
    if NODE is None:
        return
    road, text, _data = paged_network(program)
    road.close()
    at = 'text("place").split(" ")[2]'
    steps = ['key("%s", { ctrlKey: %s, shiftKey: %s }), [%s, ...view()]' % (*one, at) for one in (
        ("ArrowRight", "false", "false"), ("ArrowRight", "true", "false"), ("ArrowLeft", "true", "false"), ("ArrowLeft", "false", "false"),
        ("ArrowRight", "false", "true"), ("PageUp", "false", "false"), ("End", "false", "false"), ("+", "false", "false"), ("-", "false", "false"),
        ("ArrowRight", "false", "false"),
    )]
    wanted = [["4.040", 2, 6], ["4.041", 2, 6], ["4.040", 2, 6], ["4.000", 2, 6], ["4.000", 5.2, 9.2], ["4.000", 2, 6], ["6.000", 2, 6]]
    wanted += [["6.000", 3.333, 6], ["6.000", 2, 6], ["6.040", 4.04, 8.04]]
    expect("places and views", stepped(program, text, "#SR12/2/6/4", *steps), wanted)


def the_mouse_and_fingers_zoom_and_go_along(program):
    if NODE is None:
        return
    road, text, _data = paged_network(program)
    road.close()
    two = '((one, other) => { pointer("down", one, { pointerId: 1 }); pointer("down", other, { pointerId: 2 }); })(xOf(7) - 40, xOf(7) + 40)'
    apart = 'pointer("move", %s, { pointerId: 1 }), pointer("move", %s, { pointerId: 2 })'
    steps = [
        'fire("diagram", "wheel", { clientX: xOf(7.75), deltaX: 0, deltaY: -600 }), [...view(), xOf(7.75)]',
        'key("0"), [...view(), xOf(7.75)]',
        'click(xOf(7.75) + 2), text("place")',
        'click(xOf(7.75)), text("place")',
        '((x) => (pointer("down", x), pointer("move", x - 20), pointer("move", x - 100), pointer("up", x - 100), view()))(xOf(7))',
        'key("+"), key("+"), view()',
        '((x, at) => (pointer("down", x), pointer("move", x - 100), pointer("up", x - 100), [x - 100, xOf(at)]))(xOf(7), 7)',
        'key("0"), [xOf(7), %s][0]' % two,
    ]
    found = stepped(program, text, SR12, *steps)
    lo, hi, x = found[0]
    expect("whether it is nearer", 0 < lo < 7.75 < hi < 14.25 and hi - lo < 8, True)
    expect("the whole", found[1][:2], [0, 14.25])
    expect("whether the place stayed", abs(x - found[1][2]) < 1, True)
    expect("a click near a change", found[2], "SR12 at 7.750 (@BRIDGE+3.750), kept")
    expect("a second one", found[3], "SR12 at 7.750 (@BRIDGE+3.750)")
    expect("a whole route goes nowhere", found[4], [0, 14.25])
    expect("keys zoom", abs(found[5][1] - found[5][0] - 14.25 / 2.25) < 0.01, True)
    expect("what is dragged stays at the pointer", abs(found[6][0] - found[6][1]) < 1, True)
    pinch = [two, "%s, view()" % apart % ("%f - 120" % found[7], "%f + 120" % found[7]), 'pointer("up", 0, { pointerId: 1 }), pointer("up", 0, { pointerId: 2 }), view()']
    lo, hi = stepped(program, text, SR12, *pinch)[2]
    expect("whether %s to %s is a third" % (lo, hi), abs(hi - lo - 4.75) < 0.05 and abs(lo - (7 - 7 / 3)) < 0.1, True)


def rows_in_view_are_shown_and_copied(program):
    if NODE is None:
        return
    road, text, data = paged_network(program)
    with road:
        number = [band["title"] for band in data["bands"]].index("pavement")
        rows = [row[:1] + tuple(map(str, row[1:])) for row in road.select("WINDOW(pavement, SR12 FROM 2 TO 9.5)")]
    steps = ['find("band").value = "%d", fire("band", "change"), listed("table", "td")' % number, 'listed("table", "th")', 'text("more")']
    steps += ['fire("copy", "click")', "copied[0]", 'text("copied")', 'fire("save", "click"), noted.pop()']
    cells, names, more, _, csv, copied, saved = stepped(program, text, "#SR12/2.000/9.500", *steps)
    expect("the table", [tuple(cells[k : k + 5]) for k in range(0, len(cells), 5)], rows)
    expect("its columns", names, ["route", "from", "to", "surface", "year"])
    expect("what is said", (more, copied), ("3 rows in view, cut at its ends", "3 rows are copied"))
    expect("what is copied", csv, "route,from,to,surface,year\n" + "".join(",".join(row) + "\n" for row in rows))
    expect("the name of a file", saved, "SR12-pavement.csv")


def of_many_rows_the_first_are_shown_and_all_copied(program):
    if NODE is None:
        return
    with dense(300, 10) as road:
        text, _data = page_of(road)
    steps = ['listed("table", "td").length / 4', 'text("more")', 'fire("copy", "click")', 'copied[0].split("\\n").length', 'text("copied")']
    shown, more, _, lines, copied = stepped(program, text, "#R/0.000/3.000", *steps)
    expect("rows that are shown", (shown, more), (200, "300 rows in view, cut at its ends; the first 200 are shown, and all are copied"))
    expect("what is copied", (lines - 2, copied), (300, "300 rows are copied"))


def routes_views_and_bands_are_chosen(program):
    if NODE is None:
        return
    road, text, data = paged_network(program)
    road.close()
    bands, crashes = len(data["bands"]), [band["title"] for band in data["bands"]].index("crashes")
    count = 'find("picture").html.split("<g class=\\"band\\"").length - 1'
    band = '{ target: { dataset: { band: "%d" }, checked: %s, closest: () => find("entry") } }'
    steps = [
        'find("search").value = "exit", fire("search", "input"), listed("routes", "option")',
        'find("routes").selectedIndex = 0, fire("routes", "change"), [text("heading"), text("place")]',
        'find("from").value = "105", find("to").value = "110.5", fire("view", "submit"), [text("heading"), text("wrong"), location.hash]',
        'find("to").value = "500", fire("view", "submit"), [text("heading"), text("wrong")]',
        'fire("view", "click", { target: { dataset: { do: "whole" } } }), text("heading")',
        'fire("entries", "change", %s), [%s, find("entry").classList.has("off")]' % (band % (crashes, "false"), count),
        'fire("entries", "change", %s), [%s, find("entry").classList.has("off")]' % (band % (crashes, "true"), count),
        'find("entries").html.split("property").length',
        'fire("entries", "change", { target: { dataset: { by: "%d" }, value: "1" } }), find("entries").html.split("property").length' % crashes,
        'fire("theme", "click"), [find("theme").textContent, noted.pop()]',
        'fire("window", "beforeprint"), [/width="1030"/.test(find("picture").html), /class="kept"/.test(find("picture").html), find("cross").hidden]',
        'fire("window", "afterprint"), [/width="900"/.test(find("picture").html), /class="kept"/.test(find("picture").html)]',
        'location.hash = "#SR12/1/2", fire("window", "hashchange"), text("heading")',
    ]
    found = stepped(program, text, SR12, *steps)
    expect("what is found", found[0], ["US40 @EXIT112 112.3"])
    expect("the route", found[1], ["US40, 102.500 to 131.875 miles", "US40 at 112.300 (@EXIT112+0.000), kept"])
    expect("a view", found[2], ["US40, 105.000 to 110.500 miles", "", "#US40/105.000/110.500/112.300"])
    expect("a view that is none", found[3], ["US40, 105.000 to 110.500 miles", "two measures from 102.500 to 131.875 are wanted"])
    expect("the whole", found[4], "US40, 102.500 to 131.875 miles")
    expect("bands", found[5:7], [[bands - 1, True], [bands, False]])
    expect("colours by another column", found[8] - found[7], 1)
    expect("a theme", found[9], ["Theme: light", "light"])
    expect("on paper", found[10:12], [[True, True, True], [True, False]])
    expect("another link", found[12], "SR12, 1.000 to 2.000 miles")


STEP_TESTS = [
    a_page_opens_where_its_link_says,
    keys_bring_the_cross_to_each_change,
    arrows_go_along_by_steps,
    the_mouse_and_fingers_zoom_and_go_along,
    rows_in_view_are_shown_and_copied,
    of_many_rows_the_first_are_shown_and_all_copied,
    routes_views_and_bands_are_chosen,
]
