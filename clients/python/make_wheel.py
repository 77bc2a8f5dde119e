"""Makes a wheel of the package, for pip (PEP 517), with the standard library alone.

setuptools makes wheels with the package `wheel`, or since version 70 by itself; where pip may fetch nothing, neither need be
there. The names and words are those of pyproject.toml, of which the few forms that stand there are read; the version is the
package's own.

decision: own-wheel
"""

import base64
import hashlib
import io
import os
import re
import tarfile
import zipfile

HERE = os.path.dirname(os.path.abspath(__file__))
PACKAGE = "roadseg"
TAG = "py3-none-any"
KEPT = (".py", ".typed", ".html", ".css", ".js")  # the files of the package
FIRST_TIME = (1980, 1, 1, 0, 0, 0)  # of all files, so that the same package makes the same wheel
PAIR = re.compile(r'([A-Za-z-]+) = "(.*)"')


def build_wheel(wheel_directory, config_settings=None, metadata_directory=None):
    """Writes the wheel, and gives its name."""
    files = {path: read(path) for path in package_paths()}
    return write_wheel(wheel_directory, files)


def build_editable(wheel_directory, config_settings=None, metadata_directory=None):
    """Writes a wheel that leads to the package where it is."""
    return write_wheel(wheel_directory, {"%s.pth" % PACKAGE: HERE.encode() + b"\n"})


def build_sdist(sdist_directory, config_settings=None):
    """Writes an archive of what the wheel is made of, and gives its name."""
    base = "%s-%s" % (PACKAGE, version())
    with tarfile.open(os.path.join(sdist_directory, base + ".tar.gz"), "w:gz") as archive:
        for path in [*package_paths(), "README.md", "make_wheel.py", "pyproject.toml"]:
            add_to_archive(archive, "%s/%s" % (base, path), read(path))
        add_to_archive(archive, base + "/PKG-INFO", metadata().encode())
    return base + ".tar.gz"


def add_to_archive(archive, path, data):
    about = tarfile.TarInfo(path)
    about.size = len(data)
    archive.addfile(about, io.BytesIO(data))


def package_paths():
    """The paths of the package's files from here, with slashes."""
    names = sorted(os.listdir(os.path.join(HERE, PACKAGE)))
    return ["%s/%s" % (PACKAGE, name) for name in names if name.endswith(KEPT)]


def read(path):
    with open(os.path.join(HERE, path), "rb") as file:
        return file.read()


def project(table):
    """The pairs of a table of pyproject.toml."""
    text = read("pyproject.toml").decode()
    found = text.partition("[%s]\n" % table)[2].partition("\n[")[0]
    return dict(PAIR.fullmatch(line).groups() for line in found.splitlines() if PAIR.fullmatch(line))


def version():
    return re.search('^__version__ = "(.*)"$', read(PACKAGE + "/__init__.py").decode(), re.MULTILINE)[1]


def metadata():
    about = project("project")
    lines = ["Metadata-Version: 2.1", "Name: " + about["name"], "Version: " + version(), "Summary: " + about["description"]]
    lines += ["Requires-Python: " + about["requires-python"], "Description-Content-Type: text/markdown", "", ""]
    return "\n".join(lines) + read(about["readme"]).decode()


def write_wheel(folder, files):
    """Writes a wheel with these files, by their paths, and what it has to say of itself."""
    base = "%s-%s" % (PACKAGE, version())
    scripts = "".join("%s = %s\n" % pair for pair in project("project.scripts").items())
    about = "%s.dist-info/" % base
    files = {
        **files,
        about + "METADATA": metadata().encode(),
        about + "WHEEL": ("Wheel-Version: 1.0\nGenerator: make_wheel\nRoot-Is-Purelib: true\nTag: %s\n" % TAG).encode(),
        about + "entry_points.txt": ("[console_scripts]\n" + scripts).encode(),
    }
    files[about + "RECORD"] = record(files, about + "RECORD").encode()
    name = "%s-%s.whl" % (base, TAG)
    with zipfile.ZipFile(os.path.join(folder, name), "w", zipfile.ZIP_DEFLATED) as wheel:
        for path, data in files.items():
            entry = zipfile.ZipInfo(path, FIRST_TIME)
            entry.external_attr = 0o100644 << 16
            wheel.writestr(entry, data, zipfile.ZIP_DEFLATED)
    return name


def record(files, own):
    """The list of the files with their checksums."""
    lines = []
    for path, data in files.items():
        checksum = base64.urlsafe_b64encode(hashlib.sha256(data).digest()).rstrip(b"=").decode()
        lines.append("%s,sha256=%s,%d" % (path, checksum, len(data)))
    return "\n".join([*lines, own + ",,", ""])
