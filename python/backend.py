#!/usr/bin/env python3
"""Makes the Python packages: the wheel, also for pip, and the zipapp council-tools.

    backend.py wheel FOLDER PLATFORM FILE..     a wheel with the program, the library or both
    backend.py sdist FOLDER                     the sources, whose wheel runs the program on the PATH
    backend.py zipapp FILE                      council-tools as one file
    backend.py zip FILE FOLDER                  a zip of a folder

`pip install ./python` calls `build_wheel` and loads nothing from the network: its wheel has neither
of the two, and looks for the program on the PATH. SOURCE_DATE_EPOCH sets the time of all files, so
two packages of the same files are the same bytes. It needs only the standard library.
"""
import base64
import gzip
import hashlib
import io
import os
import re
import sys
import tarfile
import time
import zipfile

HERE = os.path.dirname(os.path.realpath(__file__))
# what runs first in a zipapp
MAIN = """import sys

if sys.version_info < (3, 9):
    sys.exit("council-tools needs Python 3.9 or newer")
from council.tools import main

sys.exit(main())
"""


def read(path):
    with open(path, "rb") as it:
        return it.read()


def read_project():
    """Returns the settings of pyproject.toml that are a text, without a TOML reader."""
    text = read(f"{HERE}/pyproject.toml").decode("utf-8")
    return dict(re.findall(r'^([a-z-]+) = "(.*)"$', text, re.M))


def list_sources():
    """Yields the path in a package and the bytes of each source."""
    for folder, folders, files in os.walk(f"{HERE}/src"):
        folders.sort()
        for name in sorted(files):
            if name.endswith((".py", ".typed")):
                path = os.path.join(folder, name)
                yield os.path.relpath(path, f"{HERE}/src"), read(path)


def write_zip(file, its):
    """Writes a zip of (path, bytes, mode), sorted, all with one time."""
    moment = time.gmtime(max(int(os.environ.get("SOURCE_DATE_EPOCH", 0)), 315532800))[:6]
    with zipfile.ZipFile(file, "w", zipfile.ZIP_DEFLATED, compresslevel=9) as out:
        for path, data, mode in sorted(its):
            entry = zipfile.ZipInfo(path, moment)
            entry.compress_type = zipfile.ZIP_DEFLATED
            # (a Unix file, on whatever system this runs)
            entry.create_system, entry.external_attr = 3, (0o100000 | mode) << 16
            out.writestr(entry, data)


def read_lists():
    """Returns the keywords, the classifiers and the URLs of pyproject.toml."""
    text = read(f"{HERE}/pyproject.toml").decode("utf-8")
    lists = [re.findall('"(.*?)"', re.search(rf"^{it} = \[(.*?)\]", text, re.M | re.S)[1]) for it in ("keywords", "classifiers")]
    return *lists, re.findall('^([A-Z][a-z]+) = "(.*)"$', text, re.M)


def make_metadata(project):
    """Returns the file METADATA."""
    keywords, classifiers, urls = read_lists()
    head = [
        "Metadata-Version: 2.1",
        f"Name: {project['name']}",
        f"Version: {project['version']}",
        f"Summary: {project['description']}",
        "Author: The project council",
        "License: MIT OR Apache-2.0",
        f"Keywords: {','.join(keywords)}",
        *(f"Classifier: {it}" for it in classifiers),
        *(f"Project-URL: {name}, {url}" for name, url in urls),
        f"Requires-Python: {project['requires-python']}",
        "Description-Content-Type: text/markdown",
    ]
    return ("\n".join(head) + "\n\n").encode() + read(f"{HERE}/README.md")


def make_wheel(folder, tag, more=()):
    """Writes the wheel of this tag, with more files in the package, and returns its name."""
    project = read_project()
    name = f"{project['name']}-{project['version']}"
    info = f"{name}.dist-info"
    its = [(path, data, 0o644) for path, data in list_sources()]
    its += [(f"council/{path}", data, 0o755) for path, data in more]
    its.append((f"{info}/METADATA", make_metadata(project), 0o644))
    pure = "false" if more else "true"
    its.append((f"{info}/WHEEL", f"Wheel-Version: 1.0\nGenerator: council\nRoot-Is-Purelib: {pure}\nTag: {tag}\n".encode(), 0o644))
    its.append((f"{info}/entry_points.txt", b"[console_scripts]\ncouncil-tools = council.tools:main\n", 0o644))
    its += [(f"{info}/LICENSE", data, 0o644) for data in read_license()]
    record = []
    for path, data, _ in sorted(its):
        digest = base64.urlsafe_b64encode(hashlib.sha256(data).digest()).rstrip(b"=").decode()
        record.append(f"{path},sha256={digest},{len(data)}\n")
    record.append(f"{info}/RECORD,,\n")
    its.append((f"{info}/RECORD", "".join(record).encode(), 0o644))
    write_zip(os.path.join(folder, f"{name}-{tag}.whl"), its)
    return f"{name}-{tag}.whl"


def build_wheel(wheel_directory, config_settings=None, metadata_directory=None):
    """Builds a wheel for pip, as PEP 517 says."""
    return make_wheel(wheel_directory, "py3-none-any")


def read_license():
    """Returns the license of a clone or of a source package, in a list of at most one."""
    return [read(it) for it in (f"{HERE}/LICENSE", f"{HERE}/../LICENSE") if os.path.isfile(it)][:1]


def build_sdist(sdist_directory, config_settings=None):
    """Builds a source package for pip, whose wheel is that of `build_wheel`."""
    project = read_project()
    name = f"{project['name']}-{project['version']}"
    its = [("PKG-INFO", make_metadata(project)), *(("LICENSE", it) for it in read_license())]
    its += [(it, read(f"{HERE}/{it}")) for it in ("README.md", "backend.py", "pyproject.toml")]
    its += [(f"src/{path}", data) for path, data in list_sources()]
    with open(os.path.join(sdist_directory, f"{name}.tar.gz"), "wb") as file, gzip.GzipFile("", "wb", 9, file, 0) as out, tarfile.open(None, "w", out, format=tarfile.PAX_FORMAT) as tar:
        for path, data in sorted(its):
            entry = tarfile.TarInfo(f"{name}/{path}")
            entry.size, entry.mtime = len(data), int(os.environ.get("SOURCE_DATE_EPOCH", 0))
            tar.addfile(entry, io.BytesIO(data))
    return f"{name}.tar.gz"


def make_zipapp(path):
    """Writes council-tools as one file that python3 runs."""
    kept = io.BytesIO()
    write_zip(kept, [("__main__.py", MAIN.encode(), 0o644), *((it, data, 0o644) for it, data in list_sources())])
    with open(path, "wb") as it:
        it.write(b"#!/usr/bin/env python3\n" + kept.getvalue())
    os.chmod(path, 0o755)


def main(words):
    if len(words) >= 4 and words[0] == "wheel":
        print(make_wheel(words[1], f"py3-none-{words[2]}", [(os.path.basename(it), read(it)) for it in words[3:]]))
    elif len(words) == 2 and words[0] == "sdist":
        print(build_sdist(words[1]))
    elif len(words) == 2 and words[0] == "zipapp":
        make_zipapp(words[1])
    elif len(words) == 3 and words[0] == "zip":
        top = os.path.dirname(os.path.abspath(words[2]))
        paths = [os.path.join(folder, it) for folder, _, files in os.walk(os.path.abspath(words[2])) for it in files]
        write_zip(words[1], [(os.path.relpath(it, top), read(it), 0o644) for it in paths])
    else:
        sys.exit(__doc__)


if __name__ == "__main__":
    main(sys.argv[1:])
