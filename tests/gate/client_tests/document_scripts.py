"""Runs the scripts of README and COOKBOOK that use the clients: tests/gate/clients.py runs these tests beside its own.

The scripts of a section are its blocks of `python` and of `sh`. They run in order, in a folder with the cookbook's network
in `network.seg`, and each has to print what the next block has, where that is of no language, and else nothing.
"""

import os
import socket
import subprocess
import sys
from typing import NamedTuple

from client_parts import CLIENTS, NETWORK
from harness import Wrong, bytes_at, expect
from programs import ROOT
from runs import LONGEST, received, serving

COOKBOOK = os.path.join(ROOT, "docs", "COOKBOOK.md")
README = os.path.join(ROOT, "README.md")
PACKAGE = os.path.join(CLIENTS, "README.md")
NETWORK_IN = "How does an office's network go in?"
CSV_IN = "How does an office's CSV go in, and what was left out again?"
LATER = "How does the inventory move to a later version?"
LOCKED = "Does the lock hold on a shared drive?"
ASKED = "How is the inventory asked from Python?"
DRAWN = "How is a diagram of a road drawn?"
LOOKED_AT = "How is a network looked at in a browser?"
PAGED = "How does an office's CSV become a page to look at?"
FROM_CSV = "How do two CSV files become a payment table and a diagram?"
BY_SHELL = "How does a CSV become a table, and that a payment table, in the shell?"
BY_NAMES = "How do routes such as I-95, and numbers with decimals, go in?"
BY_STATIONS = "How do measures in stations go in, and two crashes at one place?"
ASKED_AS_CSV = "How does an answer become a CSV for a spreadsheet?"
AS_TEXT = "How is the inventory kept as plain text, and what changed between two days?"
KEPT = "How does an office keep its inventory?"
SENT_AGAIN = "Which lines of a load were refused, and how are they sent again?"
BACKED_UP = "How is the inventory backed up?"
LONGER = "How is a route made longer?"
REFUSED = "What is to be done about `95 file not closed` and `94 damaged file`?"
NETWORKED = "How is a report asked for over the network?"
# What `nc -N` does: sends its input and the end of it, and prints what comes.
NC = """#!%s
import socket, sys
with socket.create_connection(sys.argv[2:4]) as peer:
    peer.sendall(sys.stdin.buffer.read())
    peer.shutdown(socket.SHUT_WR)
    while data := peer.recv(65536):
        sys.stdout.buffer.write(data)
"""
PATIENCE = 5 * LONGEST  # seconds that a script may take, which starts many programs
SERVED = "7400"  # the port of `serve`, for which another one is put


class Block(NamedTuple):
    """A fenced block of a section: the language that is named, the number of its first line, and its text."""

    language: str
    number: int
    text: str


def blocks_of(path, heading):
    """The fenced blocks of a section of a document."""
    with open(path, encoding="utf-8") as file:
        lines = [(number, line.rstrip("\n")) for number, line in enumerate(file, 1)]
    blocks, block, is_within = [], None, False
    for number, line in lines:
        if block is not None and line != "```":
            block = block._replace(text=block.text + line + "\n")
        elif block is not None:
            blocks, block = [*blocks, block], None
        elif line.startswith("## "):
            is_within = line == "## " + heading
        elif is_within and line.startswith("```"):
            block = Block(line.removeprefix("```"), number + 1, "")
    return blocks


def run_section(program, path, heading):
    """Runs the scripts of a section. Gives how many there were."""
    blocks = blocks_of(path, heading)
    scripts = 0
    for block, after in zip(blocks, [*blocks[1:], None]):
        if block.language in ("python", "sh"):
            scripts += 1
            wanted = after.text if after is not None and not after.language else ""
            place = "%s:%d" % (os.path.relpath(path, ROOT), block.number)
            done = run_block(program, block)
            expect("%s: status and standard error" % place, (done.returncode, done.stderr), (0, b""))
            expect("%s: what is printed" % place, done.stdout.decode(), wanted)
    return scripts


def run_block(program, block):
    if "roadseg.connect(" not in block.text:
        return run_script(program, block)
    with serving(program, program.file("network.seg"), 1) as server:
        done = run_script(program, block._replace(text=block.text.replace(SERVED, str(server.port))))
        server.expect_end()
    return done


def run_script(program, block, options="-euo"):
    words = [sys.executable, "-c"] if block.language == "python" else ["bash", options, "pipefail", "-c"]
    path = os.pathsep.join([program.folder, os.path.dirname(program.path), os.path.dirname(sys.executable), os.environ["PATH"]])
    variables = {**os.environ, "PATH": path, "PYTHONPATH": CLIENTS, "ROADSEG": ROOT}
    return subprocess.run([*words, block.text], cwd=program.folder, env=variables, capture_output=True, timeout=PATIENCE)


def expect_printed(program, heading, wanted):
    """Runs the scripts of a section that says in words what they print, and whose greps may find nothing."""
    scripts = [block for block in blocks_of(COOKBOOK, heading) if block.language == "sh"]
    expect("scripts of %s" % heading, len(scripts), len(wanted))
    for block, out in zip(scripts, wanted):
        done = run_script(program, block, "-uo")
        expect("COOKBOOK.md:%d" % block.number, (done.stdout.decode(), done.stderr), (out, b""))


def prepare(program):
    """The folder of a reader of the documents, who has entered the network."""
    for name in ("clients", "examples"):
        os.symlink(os.path.join(ROOT, name), program.file(name))
    file = program.file("network.seg")
    program.expect(["create", "--file", file], b"", b"")
    done = program.run("run", "--file", file, sent=bytes_at(NETWORK))
    expect("the network", (done.status, done.errors, b" ERR " in done.out), (0, b"", False))


def in_checkout():
    """The files and folders of the repository but for what is built."""
    found = set()
    for at, names, files in os.walk(ROOT):
        names[:] = [name for name in names if name not in (".git", "out", "__pycache__")]
        found.update(os.path.join(at, name) for name in [*names, *files])
    return found


def what_the_readme_says_is_so(program):
    """Its scripts are followed in a folder of the reader's own, and leave nothing in the checkout."""
    before = in_checkout()
    expect("scripts", run_section(program, README, "Try it") + run_section(program, README, "From Python"), 2)
    expect("what is left in the checkout", in_checkout() - before, set())


def the_inventory_is_asked_from_python(program):
    prepare(program)
    expect("scripts of COOKBOOK", run_section(program, COOKBOOK, ASKED), 4)
    os.rename(program.file("network.seg"), program.file("roads.seg"))
    for heading in ("Lines and rows", "DB-API 2", "What lines can't ask"):
        expect("scripts of the package", run_section(program, PACKAGE, heading), 1)


def diagrams_are_drawn_as_they_are_kept(program):
    prepare(program)
    expect("scripts", run_section(program, COOKBOOK, DRAWN), 1)
    for name in ("SR12.svg", "US40.svg"):
        if bytes_at(program.file(name)) != bytes_at(os.path.join(ROOT, "examples", name)):
            raise Wrong("examples/%s is drawn otherwise" % name)


def a_page_is_made_as_it_is_kept(program):
    prepare(program)
    expect("scripts", run_section(program, COOKBOOK, LOOKED_AT), 1)
    if bytes_at(program.file("roads.html")) != bytes_at(os.path.join(ROOT, "examples", "roads.html")):
        raise Wrong("examples/roads.html is made otherwise")


def csv_becomes_a_page_in_five_commands(program):
    prepare(program)
    expect("scripts", run_section(program, COOKBOOK, PAGED), 1)
    [block] = [one for one in blocks_of(COOKBOOK, PAGED) if one.language == "sh"]
    expect("commands, and the one that shows the page", len(block.text.splitlines()) + 1, 5)
    made = bytes_at(program.file("office.html"))
    expect("what the page has", (b'"title":"Not mowed"' in made, made.count(b'["SR12",0,14250,')), (True, 1))
    expect("whether all was taken", b"ERR" in bytes_at(program.file("replies")), False)


def two_csv_files_become_a_payment_table_and_a_diagram(program):
    prepare(program)
    expect("scripts", run_section(program, COOKBOOK, FROM_CSV), 1)
    expect("whether the diagram is one", bytes_at(program.file("mowing.svg")).endswith(b"</svg>\n"), True)
    program.expect(["run", "--file", program.file("mowing.seg")], b"0 TOTAL mowing BY ()\n", b"0 ROW 55.625\n0 OK 1\n")


def csv_becomes_a_payment_table_in_the_shell(program):
    prepare(program)
    expect("scripts", run_section(program, COOKBOOK, BY_SHELL), 1)


def names_are_made_numbers_scaled_and_stations_read_in_the_shell(program):
    prepare(program)
    expect("scripts", run_section(program, COOKBOOK, BY_NAMES) + run_section(program, COOKBOOK, BY_STATIONS), 2)


def an_office_enters_its_network_and_its_csv(program):
    expect("scripts", run_section(program, COOKBOOK, NETWORK_IN) + run_section(program, COOKBOOK, CSV_IN), 3)


def a_file_moves_and_is_locked(program):
    prepare(program)
    expect("scripts", run_section(program, COOKBOOK, LATER) + run_section(program, COOKBOOK, LOCKED), 2)


def a_run_answers_a_socket(program):
    """As a service manager starts it, with the connection as both of its streams."""
    prepare(program)
    with socket.create_server(("127.0.0.1", 0)) as listener:
        peer = socket.create_connection(listener.getsockname(), timeout=LONGEST)
        connection, _ = listener.accept()
    words = [program.path, "run", "--file", program.file("network.seg")]
    with connection, subprocess.Popen(words, stdin=connection, stdout=connection, stderr=subprocess.PIPE) as process:
        connection.close()
        with peer:
            peer.sendall(b"0 REMOVE speed ON SR12\n0 TOTAL pavement BY (surface)\n")
            peer.shutdown(socket.SHUT_WR)
            answers = received(peer)
        expect("its end", (process.wait(LONGEST), process.stderr.read()), (0, b""))
    expect("its answers", answers.split(b"\n", 1)[1], b"0 ROW 'asphalt' 19.725\n0 ROW 'concrete' 35.300\n0 OK 2\n")
    program.expect(["run", "--file", program.file("network.seg")], b"0 SELECT WINDOW(speed, SR12)\n", b"0 OK 0\n")


def an_answer_becomes_a_csv(program):
    prepare(program)
    expect("scripts", run_section(program, COOKBOOK, ASKED_AS_CSV), 3)


def the_inventory_is_kept_as_plain_text(program):
    prepare(program)
    expect("scripts", run_section(program, COOKBOOK, AS_TEXT), 5)


def refused_lines_are_mended_and_sent_again(program):
    prepare(program)
    expect("scripts", run_section(program, COOKBOOK, SENT_AGAIN), 2)


def an_office_keeps_a_file_its_copies_and_a_longer_one(program):
    os.symlink(os.path.join(ROOT, "examples"), program.file("examples"))
    rows = "0 ROW SR12 0.000 7.750 'asphalt' 2011\n0 ROW SR12 7.750 9.100 'concrete' 1998\n0 ROW SR12 9.100 14.250 'asphalt' 2019\n"
    expect_printed(program, KEPT, ["", rows + "0 OK 3\n"])
    with open(program.file("today.txt"), "w", encoding="utf-8") as today:
        today.write("0 INSERT INTO speed ON SR12N FROM 0 TO 1 VALUES (25)\n")
    expect_printed(program, BACKED_UP, ["sound\n", "0 OK 1000\n"])
    expect_printed(program, LONGER, ["longer\n"])
    asked = b"0 TRANSLATE US40 100% AS ABSOLUTE\n0 TOTAL speed BY ()\n"
    program.expect(["run", "--file", program.file("longer.seg")], asked, b"0 ROW 150.000\n0 OK 1\n0 ROW 56.625\n0 OK 1\n")
    with open(program.file("network.seg"), "r+b") as file:
        file.truncate(5_000)
    program.expect(["run", "--file", program.file("network.seg")], b"", b"", b"roadseg: ERR 94 damaged file\n")
    expect_printed(program, REFUSED, [""])
    program.expect(["run", "--file", program.file("network.seg")], asked[34:], b"0 ROW 56.625\n0 OK 1\n")


def a_report_is_asked_for_over_the_network(program):
    """By a stand-in for OpenBSD's `nc`, which is not everywhere."""
    prepare(program)
    with open(program.file("nc"), "w", encoding="utf-8") as script:
        script.write(NC % sys.executable)
    os.chmod(program.file("nc"), 0o755)
    serve, asked = [block for block in blocks_of(COOKBOOK, NETWORKED) if block.language == "sh"]
    [printed] = [block for block in blocks_of(COOKBOOK, NETWORKED) if not block.language]
    expect("what serves", serve.text, "roadseg serve --file network.seg --connections 2\n")
    with serving(program, program.file("network.seg"), 2) as server:
        done = run_script(program, asked._replace(text=asked.text.replace(SERVED, str(server.port))))
        totals = "3 ROW 'asphalt' 19.725\n3 ROW 'concrete' 35.300\n3 OK 2\n"
        expect("what is printed", (done.stdout.decode(), done.stderr), (printed.text + totals, b""))
        server.expect_end()


def each_script_of_the_cookbook_is_run(_program):
    """Each section with a script is one that a test here runs."""
    with open(COOKBOOK, encoding="utf-8") as file:
        headings = [line[3:].rstrip("\n") for line in file if line.startswith("## ")]
    with_scripts = [one for one in headings if any(block.language in ("python", "sh") for block in blocks_of(COOKBOOK, one))]
    run = {NETWORK_IN, CSV_IN, LATER, LOCKED, ASKED, DRAWN, LOOKED_AT, PAGED, FROM_CSV, BY_SHELL, BY_NAMES, BY_STATIONS, ASKED_AS_CSV, AS_TEXT, KEPT, SENT_AGAIN, BACKED_UP, LONGER, REFUSED, NETWORKED}
    expect("sections with scripts", set(with_scripts), run)


DOCUMENT_TESTS = [
    an_office_enters_its_network_and_its_csv,
    a_file_moves_and_is_locked,
    a_run_answers_a_socket,
    what_the_readme_says_is_so,
    an_office_keeps_a_file_its_copies_and_a_longer_one,
    refused_lines_are_mended_and_sent_again,
    a_report_is_asked_for_over_the_network,
    each_script_of_the_cookbook_is_run,
    the_inventory_is_asked_from_python,
    diagrams_are_drawn_as_they_are_kept,
    a_page_is_made_as_it_is_kept,
    csv_becomes_a_page_in_five_commands,
    two_csv_files_become_a_payment_table_and_a_diagram,
    csv_becomes_a_payment_table_in_the_shell,
    names_are_made_numbers_scaled_and_stations_read_in_the_shell,
    an_answer_becomes_a_csv,
    the_inventory_is_kept_as_plain_text,
]
