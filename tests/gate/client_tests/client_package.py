"""Tests of the client in Python as a package: that it installs, that it is typed, and that Python 3.9 can read it.
tests/gate/clients.py runs them."""

import ast
import glob
import importlib
import inspect
import os
import pkgutil
import re
import shutil
import subprocess
import sys
import threading
import zipfile

from client_parts import CLIENTS, expect_error, roadseg
from harness import expect

PACKAGE = os.path.join(CLIENTS, "roadseg")
OLDEST = (3, 9)
PARSING = threading.Lock()
OLDEST_PIP = 23  # the oldest that this was tried with
PATIENCE = 600  # seconds that pip, or a Python of another version, may take
NEEDED = "csv, decimal, fcntl, fractions, select, socket, subprocess, tempfile, unicodedata"  # what a small Python may lack
LONGEST_FILE = 600  # lines
ASKED = """
import importlib, inspect, sys, typing
import roadseg
from roadseg import colours, dbapi, diagram, page, pairing, reckoning
with roadseg.run(None, sys.argv[1]) as road:
    road.execute("DEFINE ROUTE A FROM 0 TO 10")
    road.execute("DEFINE LINE TABLE pave (surf TEXT(8))")
    print(road.load("pave", [("A", 0, 1, "it's"), ("B", 0, 1, "x")]).new, road.schema())
    print(list(road.select("pave", batch=1)), road.columns("pave"))
    rows = list(road.select("pave"))
    print(reckoning.ordered(rows, 3, limit=1), reckoning.totals_by_route(rows), reckoning.depths(rows), reckoning.tiles(rows, "0.6")[1][3])
    print(reckoning.summaries(road.select("pave"), "surf")[0].maximum, reckoning.quantiles(rows, 3, [0.5]))
    print(pairing.overlaps(rows, rows)[0].length, pairing.within(rows, rows, 1)[0].distance, pairing.nearest(rows, rows)[0].distance)
    print("it's" in page.page(road, [page.Asked("Pave", "pave")], colours.Palette(road), "T"), "<svg" in diagram.diagram(road, "A", [diagram.Question("P", "pave")]))
    print(dbapi.Connection(road).cursor().execute("SELECT WHERE(pave, surf = ?)", ["it's"]).fetchall())
for name in sys.argv[2:]:
    for thing in list(vars(importlib.import_module("roadseg." + name)).values()):
        if inspect.isfunction(thing) or inspect.isclass(thing) and thing.__module__.startswith("roadseg."):
            try:
                typing.get_type_hints(thing)
            except NameError:
                pass  # it names what is imported for types alone
"""
ANSWERED = """1000 Schema(1 routes, 1 tables, 0 views, 0 alignments, 0 indexes)
[('A', Decimal('0.000'), Decimal('1.000'), "it's")] {'route': ['A'], 'from': [Decimal('0.000')], 'to': [Decimal('1.000')], 'surf': ["it's"]}
[('A', Decimal('0.000'), Decimal('1.000'), "it's")] [('A', Decimal('1.000'))] [('A', Decimal('0.000'), Decimal('1.000'), 1)] [('A', Decimal('0.600'), Decimal('1.000'), "it's")]
it's ["it's"]
1.000 0.000 0.000
True True
[('A', Decimal('0.000'), Decimal('1.000'), "it's")]
"""


def modules():
    return sorted(name for _finder, name, _is_package in pkgutil.iter_modules([PACKAGE]))


def sources():
    return sorted(glob.glob(os.path.join(PACKAGE, "*.py")) + glob.glob(os.path.join(CLIENTS, "*.py")))


def text_at(path):
    with open(path, encoding="utf-8") as file:
        return file.read()


def tree_of(path):
    """The syntax tree of a source, by the syntax of the oldest Python. Python 3.11 fails where two threads ask for trees at once."""
    with PARSING:
        return ast.parse(text_at(path), path, feature_version=OLDEST)


def the_syntax_is_that_of_python_3_9(_program):
    for path in sources():
        tree_of(path)
        expect("lines of %s" % path, len(text_at(path).splitlines()) <= LONGEST_FILE, True)


def functions_of(module):
    """The functions of a module, and the methods and properties of its classes."""
    own = [thing for thing in vars(module).values() if getattr(thing, "__module__", None) == module.__name__]
    yield from filter(inspect.isfunction, own)
    for kind in filter(inspect.isclass, own):
        for thing in vars(kind).values():
            thing = thing.fget if isinstance(thing, property) else thing
            if inspect.isfunction(thing) and thing.__module__ == module.__name__:
                yield thing


def all_functions_have_types(_program):
    """Each function and method has types for all that it takes and gives."""
    expect("the mark of a typed package", os.path.exists(os.path.join(PACKAGE, "py.typed")), True)
    for name in modules():
        for call in functions_of(importlib.import_module("roadseg." + name)):
            if call.__name__ != "<lambda>":
                names = set(inspect.signature(call).parameters) - {"self", "cls"} | {"return"}
                expect("types of %s in %s" % (call.__qualname__, name), names - set(call.__annotations__), set())


def nothing_but_the_standard_library_is_imported(_program):
    own = {"roadseg", "make_wheel"}
    for path in sources():
        tree = tree_of(path)
        for node in ast.walk(tree):
            names = [alias.name for alias in node.names] if isinstance(node, ast.Import) else []
            names += [node.module] if isinstance(node, ast.ImportFrom) and not node.level else []
            for name in {name.partition(".")[0] for name in names} - own - {"pandas"}:
                expect("whether %s of %s is of the library" % (name, path), name in sys.stdlib_module_names, True)
        at_the_top = [alias.name for node in tree.body if isinstance(node, ast.Import) for alias in node.names]
        expect("whether %s imports pandas at once" % path, "pandas" in at_the_top, False)


def pythons():
    """The versions of Python from 3.9 on that are at hand: this one, those on the path, and those installed beside this one."""
    found = {sys.version_info[:2]: sys.executable}
    folders = [*os.environ["PATH"].split(os.pathsep), *glob.glob(os.path.join(os.path.dirname(sys.base_prefix), "*", "bin"))]
    for minor in range(9, 20):
        for folder in folders:
            path = os.path.join(folder, "python3.%d" % minor)
            if (3, minor) not in found and os.access(path, os.X_OK) and works(path, minor):
                found[3, minor] = path
    return found


def works(path, minor):
    """Whether this is a whole Python of that version, and no stand-in that starts none."""
    words = [path, "-c", "import sys, %s; print(sys.version_info[1])" % NEEDED]
    done = subprocess.run(words, capture_output=True, timeout=PATIENCE)
    return done.stdout == b"%d\n" % minor


def each_python_at_hand_asks_by_the_package(program):
    """By this one without a warning. What later ones warn of is not known yet."""
    environment = {**os.environ, "PYTHONPATH": CLIENTS, "PYTHONDONTWRITEBYTECODE": "1"}
    for version, path in pythons().items():
        strictness = "error" if path == sys.executable else "ignore"
        words = [path, "-S", "-W", strictness, "-c", ASKED, program.path, *(name for name in modules() if name != "__main__")]
        done = subprocess.run(words, capture_output=True, env=environment, timeout=PATIENCE)
        expect("Python %d.%d" % version, (done.returncode, done.stderr, done.stdout.decode()), (0, b"", ANSWERED))


def pip(program, python, *words):
    """What pip of a Python does by itself, whatever this user, this machine or the environment has set for it."""
    settings = {name: value for name, value in os.environ.items() if not name.startswith(("PIP_", "PYTHON"))}
    settings.update(HOME=program.folder, PIP_CONFIG_FILE=os.devnull, PYTHONDONTWRITEBYTECODE="1")
    return subprocess.run([python, "-m", "pip", *words], capture_output=True, env=settings, timeout=PATIENCE)


def has_pip(program, python):
    found = re.match(rb"pip ([0-9]+)", pip(program, python, "--version").stdout)
    return found is not None and int(found[1]) >= OLDEST_PIP


def installed(program, python, source):
    """The folder into which pip has put the package, without a network."""
    folder = program.file("site")
    words = ["--quiet", "--disable-pip-version-check", "--no-cache-dir", "--no-index", "--no-build-isolation"]
    done = pip(program, python, "install", *words, "--target", folder, source)
    expect("what pip says: %s" % done.stderr[-300:].decode(errors="replace"), done.returncode, 0)
    return folder


def pip_installs_the_package_without_a_network(program):
    source = program.file("python")
    shutil.copytree(CLIENTS, source, ignore=shutil.ignore_patterns("__pycache__"))
    for version, python in pythons().items():
        if not has_pip(program, python):
            print("Python %d.%d has no pip from %d on: the package is not installed by it" % (*version, OLDEST_PIP))
            continue
        folder = installed(program, python, source)
        environment = {**os.environ, "PYTHONPATH": folder}
        done = subprocess.run([python, "-c", ASKED, program.path], capture_output=True, cwd=folder, env=environment, timeout=PATIENCE)
        expect("what is asked of it", (done.returncode, done.stderr, done.stdout.decode()), (0, b"", ANSWERED))
        for name in ("py.typed", "__main__.py", "diagram.py", "labels.py", "page.html", "page.css", "page_rows.js", "page_view.js"):
            expect(name, os.path.exists(os.path.join(folder, "roadseg", name)), True)
        scripts = sorted(name for name in os.listdir(os.path.join(folder, "bin")) if name.startswith("roadseg"))
        expect("scripts", scripts, ["roadseg-diagram", "roadseg-page", "roadseg-prompt"])
        shutil.rmtree(folder)
    left = sorted(set(os.listdir(source)) - set(os.listdir(CLIENTS)) - {"__pycache__"})
    expect("what is left in the source", left, [])


def a_wheel_is_the_same_each_time(program):
    sys.path.insert(0, CLIENTS)
    wheels = []
    for name in ("one", "two"):
        os.mkdir(program.file(name))
        make_wheel = importlib.import_module("make_wheel")
        path = os.path.join(program.file(name), make_wheel.build_wheel(program.file(name)))
        with open(path, "rb") as file:
            wheels.append(file.read())
        with zipfile.ZipFile(path) as wheel:
            expect("whether its sums hold", wheel.testzip(), None)
            listed = {line.split(",")[0] for line in wheel.read("roadseg-1.0.0.dist-info/RECORD").decode().splitlines()}
            expect("its record", listed, set(wheel.namelist()))
    expect("whether it is the same", wheels[0] == wheels[1], True)
    expect("an archive", make_wheel.build_sdist(program.folder), "roadseg-1.0.0.tar.gz")


def what_stood_before_is_still_there(_program):
    import diagram
    import labels
    import roadseg.diagram
    import roadseg.labels

    expect("the diagram", diagram is roadseg.diagram, True)
    expect("the labels", labels is roadseg.labels, True)
    for name in ("Client", "Error", "Failed", "Refused", "Rows", "Unsendable", "connect", "create", "literal", "literals", "run"):
        expect("whether %s is public" % name, name in roadseg.__all__ and hasattr(roadseg, name), True)
    expect_error(ImportError, importlib.import_module, "roadseg.none")


PACKAGE_TESTS = [
    the_syntax_is_that_of_python_3_9,
    all_functions_have_types,
    nothing_but_the_standard_library_is_imported,
    each_python_at_hand_asks_by_the_package,
    pip_installs_the_package_without_a_network,
    a_wheel_is_the_same_each_time,
    what_stood_before_is_still_there,
]
