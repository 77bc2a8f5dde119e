"""Tests of the page in a headless Chromium, where one is installed: tests/gate/clients.py runs them beside its own. The page is opened,
zoomed and asked by the mouse, by keys and by its address, and pictures of it are taken."""

import json
import time
import zlib
from decimal import Decimal as D

from browser import Browser, path_of_browser
from client_parts import network, running
from harness import expect
from pages import NODE, QUESTIONS, asked_of, dense, large_rows, node, page_of, random_network
from prepared import client_of_answers, least_of
from roadseg import colours, page

FOUND = path_of_browser()
FIRST, ZOOM = 3.0, 0.1  # seconds, until the first picture of a large network, and for a zoom
TIMES = 2  # as long as its questions take, a page may take at the most
SHIFT = 8  # of a key
ASPHALT = (0x77, 0xAA, 0xDD)

if FOUND is None:
    print("no Chromium is there: pages are not opened")


def page_file(program, text):
    path = program.file("page.html")
    with open(path, "w", encoding="utf-8") as file:
        file.write(text)
    return path


def texts(browser, selector):
    return browser.value("[...document.querySelectorAll(%s)].map((one) => one.textContent)" % json.dumps(selector))


def heading(browser):
    return texts(browser, "#heading")[0]


def held(browser):
    """What the list at the cross says: titles with values, and places."""
    return [words.partition(" ")[::2] for words in texts(browser, "#holds li")]


def x_of(browser, place):
    """Where a place is in the window."""
    left = browser.value("document.querySelector('#picture').getBoundingClientRect().left")
    axis = browser.value("document.querySelector('.picture .axis').getAttribute('d')")
    start, end = (float(part.split(",")[0]) for part in axis.lstrip("M").split(" "))
    lo, hi = view_of(browser)
    return left + start + (end - start) * (place - lo) / (hi - lo)


def pixels(browser, x, y, width, height):
    """The colours of a part of what is seen: of a PNG of 8 bits a channel."""
    data = browser.picture(x, y, width, height)
    expect("a picture", data[:8], b"\x89PNG\r\n\x1a\n")
    place, packed, channels = 8, b"", 0
    while place < len(data):
        length, kind = int.from_bytes(data[place : place + 4], "big"), data[place + 4 : place + 8]
        if kind == b"IHDR":
            channels = {2: 3, 6: 4}[data[place + 17]]
        if kind == b"IDAT":
            packed += data[place + 8 : place + 8 + length]
        place += 12 + length
    return set(unfiltered(zlib.decompress(packed), width, height, channels))


def unfiltered(lines, width, height, channels):
    stride, before = width * channels, bytearray(width * channels)
    for k in range(height):
        kind, line = lines[k * (stride + 1)], bytearray(lines[k * (stride + 1) + 1 : (k + 1) * (stride + 1)])
        for i in range(stride):
            a, c = (line[i - channels], before[i - channels]) if i >= channels else (0, 0)
            b = before[i]
            line[i] = (line[i] + (0, a, b, (a + b) // 2, nearest(a, b, c))[kind]) & 255
        before = line
        yield from (tuple(line[i : i + 3]) for i in range(0, stride, channels))


def nearest(a, b, c):
    return min((a, b, c), key=lambda one: abs(a + b - c - one))


def a_browser_shows_zooms_and_lists(program):
    if FOUND is None:
        return
    with network(program) as road, Browser(FOUND) as browser:
        text, data = page_of(road, asked_of(road, **QUESTIONS))
        path = page_file(program, text)
        browser.open(path, "#SR12")
        expect("its heading", heading(browser), "SR12, 0.000 to 14.250 miles")
        expect("its title", browser.value("document.title"), "Roads")
        bands = [band["title"] for band in data["bands"]]
        pavement = '.band[data-band="%d"] ' % bands.index("pavement")
        expect("a band's text", texts(browser, pavement + "text"), ["pavement", "asphalt, 2011", "concrete", "asphalt, 2019"])
        look_at_colours(browser)
        zoom_by_the_wheel(browser, pavement)
        ask_by_keys(browser, road, data)
        zoom_by_fingers(browser)
        keep_by_a_click(browser, path)
        read_the_table(browser, road, bands)
        choose_another(browser)
        use_the_keyboard_alone(browser, path)
        take_pictures(browser)


def texts_of_a_browser_lie_apart(program):
    """By the boxes that a browser gives to texts, in the fonts that it has: of the network, and of one with texts of all sorts."""
    if FOUND is None:
        return
    with Browser(FOUND) as browser:
        for road in (network(program), random_network(program)[0]):
            with road:
                text, data = page_of(road)
            for width in (1280, 700, 390):
                browser.size(width, 900)
                browser.open(page_file(program, text), "#" + data["routes"][0][0])
                for way in ("whole", "in", "in"):
                    browser.value("document.querySelector('[data-do=%s]').click()" % way)
                    browser.settle()
                    expect("texts that overlap or are cut at %d pixels" % width, browser.value(MISPLACED), [])


MISPLACED = """(() => {
    const picture = document.querySelector('.picture').getBoundingClientRect(), found = [];
    const texts = [...document.querySelectorAll('.picture text')].map((one) => [one.textContent, one.getBoundingClientRect()]);
    texts.forEach(([words, box], k) => {
        if (box.left < picture.left || box.right > picture.right || box.bottom > picture.bottom) found.push(words);
        for (const [other, { left, right, top, bottom }] of texts.slice(0, k)) {
            const x = Math.min(box.right, right) - Math.max(box.left, left), y = Math.min(box.bottom, bottom) - Math.max(box.top, top);
            if (x > 0.5 && y > 0.5) found.push(words + ' and ' + other);
        }
    });
    return found;
})()"""


def look_at_colours(browser):
    """The first span of the pavement is asphalt."""
    y = browser.value("document.querySelector('.picture .span').getBoundingClientRect().top")
    x = x_of(browser, 1)
    for scheme, ground in (("light", (255, 255, 255)), ("dark", (22, 24, 28))):
        browser.media(prefers_color_scheme=scheme)
        browser.settle()
        background = browser.value("getComputedStyle(document.body).backgroundColor")
        expect("the ground of %s" % scheme, background, "rgb(%d, %d, %d)" % ground)
        expect("whether there is asphalt in %s" % scheme, ASPHALT in pixels(browser, x, y, 60, 200), True)
    browser.media(prefers_color_scheme="light")


def zoom_by_the_wheel(browser, pavement):
    x = x_of(browser, 7.75)
    y = browser.value("document.querySelector('#diagram').getBoundingClientRect().top") + 60
    browser.mouse("Wheel", x, y, deltaX=0, deltaY=-600)
    browser.settle()
    lo, hi = view_of(browser)
    expect("whether it is nearer", 0 < lo < 7.75 < hi < 14.25 and hi - lo < 8, True)
    expect("where the place is now", abs(x_of(browser, 7.75) - x) < 2, True)
    expect("a label that has room now", "concrete, 1998" in texts(browser, pavement + "text"), True)
    browser.click(x, y)
    expect("the cross", texts(browser, "#place"), ["SR12 at 7.750 (@BRIDGE+3.750), kept"])
    browser.click(x, y)


def view_of(browser):
    return [float(browser.value("document.getElementById('%s').value" % name)) for name in ("from", "to")]


def zoom_by_fingers(browser):
    """Two fingers that go three times as far apart show a third; one that goes along goes along the route."""
    browser.ask("Emulation.setTouchEmulationEnabled", enabled=True, maxTouchPoints=2)
    middle = x_of(browser, 7)
    browser.touch("Start", (middle - 40, 160))
    browser.touch("Start", (middle - 40, 160), (middle + 40, 160))
    for apart in (60, 90, 120):
        browser.touch("Move", (middle - apart, 160), (middle + apart, 160))
    browser.touch("End")
    browser.settle()
    lo, hi = view_of(browser)
    expect("whether %.3f to %.3f is a third, about the fingers" % (lo, hi), abs(hi - lo - 4.75) < 0.05 and abs(lo - 7 + (7 - 0) / 3) < 0.1, True)
    at = x_of(browser, 7)
    browser.touch("Start", (at, 160))
    for further in (20, 60, 100):
        browser.touch("Move", (at - further, 160))
    browser.touch("End")
    browser.settle()
    expect("whether it went along", abs(x_of(browser, 7) - (at - 100)) < 2, True)
    browser.ask("Emulation.setTouchEmulationEnabled", enabled=False)


def ask_by_keys(browser, road, data):
    browser.value("document.getElementById('diagram').focus()")
    browser.key("0")
    browser.settle()
    expect("the whole route", heading(browser), "SR12, 0.000 to 14.250 miles")
    browser.key("Home")
    places = []
    for _ in range(12):
        browser.key("n")
        browser.settle()
        words = texts(browser, "#place")[0]
        places.append(D(words.split(" ")[2]))
        expect_held(browser, road, data, places[-1])
    wanted = {D(0), D("14.25")}
    for band in data["bands"]:
        wanted |= {part for row in road.select("WINDOW(%s, SR12)" % band["query"]) for part in row[1:3] if isinstance(part, D)}
    wanted |= {D(4), D("9.1")}
    expect("changes", sorted(set(places)), sorted(wanted - {D(0)}))
    spoken = texts(browser, "#spoken")[0]
    expect("what is spoken", spoken, "At 14.250: nothing")
    browser.key("Escape")
    expect("without a cross", texts(browser, "#holds li"), [])


def expect_held(browser, road, data, place):
    """Expects that the list at the cross has what holds there, and the points that are near."""
    found = texts(browser, "#holds li b")
    wanted = []
    for band in data["bands"]:
        if band["kind"] == "LINE" and place < D("14.25"):
            part = "WINDOW(%s, SR12 FROM %s TO %s)" % (band["query"], place, place + D("0.001"))
            wanted += [band["title"]] * len(list(road.select(part)))
    lines = [title for title in found if title not in ("crashes", "Both")]
    expect("what holds at %s" % place, sorted(lines), sorted(wanted))
    if place == 4:
        expect("points at the bridge", [title for title in found if title == "crashes"], ["crashes"] * 2)


def keep_by_a_click(browser, path):
    browser.open(path, "#SR12/2.000/6.000/4.000")
    expect("its heading", heading(browser), "SR12, 2.000 to 6.000 miles")
    expect("the cross", texts(browser, "#place"), ["SR12 at 4.000 (@BRIDGE+0.000), kept"])
    rows = texts(browser, "#holds li")
    for wanted in ("crashes 2, fatal 4.000", "pavement asphalt, 2011 0.000 to 7.750", "work_zones WZ7, 1 3.900 to 4.600"):
        expect("whether %s is listed" % wanted, wanted in rows, True)
    browser.click(x_of(browser, 5), 160)
    browser.wait("location.hash !== '#SR12/2.000/6.000/4.000'")
    at = browser.value("location.hash").split("/")[3]
    expect("whether %s is the place in the address" % at, abs(float(at) - 5) < 0.01, True)


def read_the_table(browser, road, bands):
    number = bands.index("pavement")
    browser.value("((box) => { box.value = '%d'; box.dispatchEvent(new Event('change')); })(document.getElementById('band'))" % number)
    rows = [row[:1] + tuple(map(str, row[1:])) for row in road.select("WINDOW(pavement, SR12 FROM 2 TO 6)")]
    cells = browser.value("[...document.querySelectorAll('#table tbody tr')].map((row) => [...row.cells].map((cell) => cell.textContent))")
    expect("the table", [tuple(row) for row in cells], rows)
    browser.value("navigator.clipboard.writeText = (text) => { window.copiedText = text; return Promise.resolve(); }; 0")
    browser.value("document.getElementById('copy').click()")
    browser.wait("document.getElementById('copied').textContent !== ''")
    wanted = "route,from,to,surface,year\n" + "".join(",".join(row) + "\n" for row in rows)
    expect("what is copied", browser.value("window.copiedText"), wanted)


def choose_another(browser):
    browser.value("((box) => { box.value = 'exit'; box.dispatchEvent(new Event('input')); })(document.getElementById('search'))")
    expect("what is found", texts(browser, "#routes option"), ["US40 @EXIT112 112.3"])
    browser.value("((box) => { box.selectedIndex = 0; box.dispatchEvent(new Event('change')); })(document.getElementById('routes'))")
    expect("the route", heading(browser), "US40, 102.500 to 131.875 miles")
    expect("the cross", texts(browser, "#place"), ["US40 at 112.300 (@EXIT112+0.000), kept"])
    count = browser.value("document.querySelectorAll('.band').length")
    browser.value("document.querySelector('[data-band]:not(g)').click()")
    browser.settle()
    expect("bands without one", browser.value("document.querySelectorAll('.band').length"), count - 1)
    named = [one for one in browser.ask("Accessibility.getFullAXTree")["nodes"] if one.get("role", {}).get("value") == "application"]
    expect("what a screen reader says", [one["name"]["value"] for one in named], ["US40, 102.500 to 131.875 miles"])


def use_the_keyboard_alone(browser, path):
    """By Tab, letters, arrows and Enter: from the page's start to the diagram, to a route, and to a part of it."""
    browser.open(path, "#SR12")
    browser.key("Tab")
    expect("what Tab comes to first", focus(browser), "skip")
    browser.key("Enter")
    expect("what it leads to", focus(browser), "diagram")
    browser.key("ArrowRight")
    browser.settle()
    expect("the cross", texts(browser, "#place"), ["SR12 at 7.268 (@BRIDGE+3.268), kept"])
    outline = browser.value("getComputedStyle(document.getElementById('diagram')).outlineStyle")
    expect("whether it is seen where keys go", outline, "solid")
    for _ in range(30):
        if focus(browser) == "search":
            break
        browser.key("Tab", SHIFT)
    expect("what Shift and Tab come to", focus(browser), "search")
    typed(browser, "us")
    expect("what is found", texts(browser, "#routes option"), ["US40"])
    browser.key("Enter")
    expect("the route", heading(browser), "US40, 102.500 to 131.875 miles")
    browser.value("(document.getElementById('search').value = '', 0)")
    typed(browser, "s")
    browser.key("ArrowDown")
    expect("what an arrow leads to", focus(browser), "routes")
    browser.key("ArrowUp")
    browser.key("ArrowUp")
    browser.wait("!document.getElementById('heading').textContent.startsWith('US40')")
    expect("a route by an arrow", heading(browser).split(",")[0] in texts(browser, "#routes option"), True)
    view_by_words(browser)


def view_by_words(browser):
    browser.value("(location.hash = '#SR12', 0)")
    browser.wait("document.getElementById('heading').textContent.startsWith('SR12,')")
    for first, last, wrong, wanted in (
        ("3", "20", "two measures from 0.000 to 14.250 are wanted", "SR12, 0.000 to 14.250 miles"),
        ("3", "4.5", "", "SR12, 3.000 to 4.500 miles"),
    ):
        for name, words in (("from", first), ("to", last)):
            browser.value("document.getElementById('%s').select(), document.getElementById('%s').focus()" % (name, name))
            typed(browser, words)
        browser.key("Enter")
        browser.settle()
        expect("what is told", texts(browser, "#wrong"), [wrong])
        expect("the view", heading(browser), wanted)


def focus(browser):
    return browser.value("document.activeElement.id")


def typed(browser, words):
    for letter in words:
        browser.key(letter)
    browser.settle()


def take_pictures(browser):
    browser.value("(location.hash = '#US40', 0)")
    browser.wait("document.getElementById('heading').textContent.startsWith('US40,')")
    browser.media(prefers_color_scheme="dark")
    expect("paper", browser.paper()[:5], b"%PDF-")
    browser.media("print", prefers_color_scheme="dark")
    background = browser.value("getComputedStyle(document.body).backgroundColor")
    expect("the ground of paper", background, "rgb(255, 255, 255)")
    browser.media()
    expect("the route after it", heading(browser), "US40, 102.500 to 131.875 miles")
    browser.size(390, 800)
    browser.settle()
    is_narrow = browser.value("document.documentElement.scrollWidth <= 390")
    expect("whether it fits a telephone", is_narrow, True)
    expect("whether it failed", browser.value("document.getElementById('failed').hidden"), True)


# Time, on an idle machine.


def a_large_page_is_made_and_shown_in_time(program):
    definitions, rows = large_rows()
    with running(program, *definitions) as road:
        for name, some in rows.items():
            expect("refused rows", road.load(name, some).refused, [])
        calls = [lambda: [road.columns(name) for name in rows], lambda: page.page(road, asked_of(road), colours.Palette(road), "Large")]
        (asking, making), (_answers, text) = least_of(calls, 9, time.monotonic)
    print("%.2f seconds for the questions, %.2f for the page of %d bytes" % (asking, making, len(text.encode())))
    expect("whether it is made in time", making <= TIMES * asking, True)
    if FOUND is None:
        return
    path, firsts, zooms = page_file(program, text), [], []
    for _ in range(3):
        with Browser(FOUND) as browser:
            firsts.append(browser.open(path))
            zooms.append([browser.value(ZOOMED % way) / 1000 for way in ("in",) * 6 + ("out",) * 6])
    first, zoom = min(firsts), max(map(min, zip(*zooms)))  # what is least of three is the page's own, and not of what runs beside it
    print("%.2f seconds until the first picture, %.3f for a zoom at the most" % (first, zoom))
    expect("the first picture", first <= FIRST, True)
    expect("a zoom", zoom <= ZOOM, True)


ZOOMED = """new Promise((done) => {
    const began = performance.now();
    document.querySelector('[data-do=%s]').click();
    requestAnimationFrame(() => requestAnimationFrame(() => done(performance.now() - began)));
})"""

def the_script_of_a_large_page_is_quick(program):
    """Without a browser: from the data to the first picture, and a picture of each of some views, by node."""
    if NODE is None:
        return
    with client_of_answers(*large_rows()) as network, dense(100_000, 30_000) as route:
        for name, road, length in (("a large network", network, 90_000), ("a dense route", route, 1_000_000)):
            text, _data = page_of(road)
            views = ["picture(0, 0, %d, 1280)" % (length // times) for times in (1, 2, 3, 10, 100, 1_000)]
            calls = ["(%s)(() => new roadseg.Book(JSON.parse(JSON.stringify(book.data))) && %s.svg())" % (TIMED, views[0])]
            calls += ["Math.min(...[1, 2, 3, 4, 5].map(() => (%s)(() => %s.svg())))" % (TIMED, view) for view in views]
            first, *zooms = (milliseconds / 1000 for milliseconds in node(program, text, calls))
            print("%.3f seconds by node until the first picture of %s, %.3f for a zoom at the most" % (first, name, max(zooms)))
            expect("the first picture of %s" % name, first <= FIRST, True)
            expect("a zoom of %s" % name, max(zooms) <= ZOOM, True)


TIMED = "(call) => ((began) => (call(), performance.now() - began))(performance.now())"

BROWSER_TESTS = [a_browser_shows_zooms_and_lists, texts_of_a_browser_lie_apart]
PAGE_SPEED_TESTS = [a_large_page_is_made_and_shown_in_time, the_script_of_a_large_page_is_quick]
