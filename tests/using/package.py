#!/usr/bin/env python3
"""The package for Python with the program, its installation by pip without a network, and
council-tools in a clone that was never built.

What the package does with the library is tested by tests/wheel.sh.
"""
import os
import re
import shutil
import subprocess
import sys
import unittest

from cases import PROGRAM, TEMP, TOP, Tests, main

TOOLS = f"{TOP}/tools/council-tools"
CLEAN = {it: value for it, value in os.environ.items() if it not in ("PYTHONPATH", "COUNCIL_LIBRARY", "COUNCIL_PROGRAM")}


def ask(python, code):
    """Returns what a Python says of this code, or None if it fails."""
    try:
        ran = subprocess.run([python, "-c", code], capture_output=True, text=True, timeout=60)
    except OSError:
        return None
    return ran.stdout.strip() if ran.returncode == 0 else None


def run(*words, **more):
    return subprocess.run(words, capture_output=True, text=True, **{"timeout": 120, **more})


class Package(Tests):
    def test_one_version_everywhere(self):
        version = run(PROGRAM, "--version").stdout.split("\n")[0].split(" ")[-1]
        for path, place in [("python/pyproject.toml", r'^version = "(.*)"$'), ("python/src/council/__init__.py", r'^__version__ = "(.*)"$'), ("r/council/DESCRIPTION", r"^Version: (.*)$"), ("docs/GUIDE.md", r"council-([0-9.]+)-py3-none-manylinux_2_34_x86_64\.whl")]:
            with open(f"{TOP}/{path}", encoding="utf-8") as it:
                self.assertEqual(set(re.findall(place, it.read(), re.M)), {version}, path)

    @unittest.skipIf(ask(sys.executable, "import venv, ensurepip") is None, "this Python makes no environment: it lacks ensurepip")
    def test_pip_install_without_a_network(self):
        """It then runs the program on the PATH, and has council-tools."""
        shutil.copytree(f"{TOP}/python", f"{TEMP}/python", ignore=shutil.ignore_patterns("__pycache__"))
        run(sys.executable, "-m", "venv", f"{TEMP}/venv")
        sources = run(sys.executable, f"{TOP}/python/backend.py", "sdist", TEMP).stdout.strip()
        os.mkdir(f"{TEMP}/bin")
        os.symlink(PROGRAM, f"{TEMP}/bin/council")
        code = "import council, importlib.metadata as its; print(council.report(51, [50, 49, 1])[0].public_good_exact, len(its.metadata('council').get_all('Classifier')) > 5, *its.metadata('council').get_all('Project-URL'))"
        for package in f"{TEMP}/python", f"{TEMP}/{sources}":
            ran = run(f"{TEMP}/venv/bin/pip", "install", "--no-index", "--force-reinstall", "-q", package, env=CLEAN)
            self.assertEqual(ran.returncode, 0, ran.stderr)
            said = run(f"{TEMP}/venv/bin/python", "-c", code, cwd=TEMP, env={**CLEAN, "PATH": f"{TEMP}/bin:{CLEAN['PATH']}"}).stdout
            self.assertEqual(said, "1/2 True Homepage, https://council.example.org/\n")
        self.assertTrue(run(f"{TEMP}/venv/bin/council-tools", "export", "csv", f"{TOP}/examples/board.tsv", env=CLEAN).stdout.startswith("name,weight,"))

    def test_a_clone_that_was_never_built(self):
        """What needs the program says so, and proves nothing."""
        clone = f"{TEMP}/clone"
        for folder in ("tools", "python"):
            shutil.copytree(f"{TOP}/{folder}", f"{clone}/{folder}", ignore=shutil.ignore_patterns("__pycache__"))
        shutil.copy(f"{TOP}/council", f"{clone}/council")
        os.mkdir(f"{TEMP}/launcher")
        os.symlink(f"{clone}/council", f"{TEMP}/launcher/council")
        run(sys.executable, f"{TOP}/python/backend.py", "zipapp", f"{TEMP}/zipapp")
        real = os.path.realpath(clone)
        for tools, path in (f"{clone}/tools/council-tools", "/usr/bin:/bin"), (f"{TEMP}/zipapp", f"{TEMP}/launcher:/usr/bin:/bin"):
            more = {"env": {**CLEAN, "PATH": path}}
            ran = run(sys.executable, tools, "sweep", f"{TOP}/examples/board.toml", **more)
            self.assertEqual((ran.returncode, ran.stdout, ran.stderr), (1, "", f"council-tools sweep: the program of {real} was never built: run {real}/council once, which takes 6 to 15 minutes\n"))
            self.assertIn("this page cannot tell", run(sys.executable, tools, "page", f"{TOP}/examples/board.tsv", **more).stdout)
            self.assertEqual(run(sys.executable, tools, "sweep", f"{TOP}/examples/board.toml", "--program", PROGRAM, **more).returncode, 0)
        self.assertFalse(os.path.exists(f"{clone}/crates"))

    def test_the_zipapp(self):
        """It is twice the same bytes, and finds the program beside it, also by a link."""
        made = []
        for at in range(2):
            path = f"{TEMP}/tools{at}"
            run(sys.executable, f"{TOP}/python/backend.py", "zipapp", path, umask=0o77 * at)
            with open(path, "rb") as it:
                made.append(it.read())
        self.assertEqual(*made)
        more = {"input": "[1; 1]", "env": {**CLEAN, "PATH": "/nowhere"}}
        self.assertEqual(run(sys.executable, f"{TEMP}/tools0", "sweep", "-", **more).stderr, "council-tools sweep: the program council was not found on the PATH\n")
        os.mkdir(f"{TEMP}/beside")
        shutil.copy(PROGRAM, f"{TEMP}/beside/council")
        shutil.copy(f"{TEMP}/tools0", f"{TEMP}/beside/tools")
        os.symlink("beside/tools", f"{TEMP}/by-link")
        ran = run(sys.executable, f"{TEMP}/by-link", "sweep", "-", **more)
        self.assertEqual(ran.stdout.split("\n")[1:], ["1\t1\t1.000000\t1.000000\t1/1\t1/1", ""])


# its own tests, where there is one by a Python with pandas
found = next((it for it in (sys.executable, "/usr/bin/python3") if ask(it, "import sys; assert sys.version_info >= (3, 9); import pandas") is not None), sys.executable)
subprocess.run([found, f"{TOP}/python/tests/test_council.py", "the package with the program"])
main("package")
