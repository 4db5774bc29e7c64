#!/usr/bin/env python3
"""The package for R, against tests/oracle.py and the stored reports."""
import os
import random
import re
import shutil
import subprocess
import unittest
from fractions import Fraction

from cases import HOSTILE, PROGRAM, TEMP, TOP, Tests, main, put
import oracle
from council.decimals import write_fraction
from council.game import write_game
from council.reports import Report

# reads each FILE, and the game of names.txt, and writes a line for each member
SCRIPT = """
library(council, lib.loc = "council.Rcheck")
show <- function(it) {
  cells <- lapply(names(it), function(name) {
    if (is.character(it[[name]])) it[[name]] else sprintf(if (grepl("^weight|^coalitions|^swings", name)) "%.0f" else "%.17g", it[[name]])
  })
  c(paste("game", attr(it, "title"), sprintf("%.0f", attr(it, "minimal")), sep = "\\t"), do.call(paste, c(cells, sep = "\\t")))
}
its <- lapply(commandArgs(TRUE), function(path) show(council(file = path, swings = grepl("^game", basename(path)))))
called <- readLines("names.txt", encoding = "UTF-8")
hard <- council(c(length(called) - 1, 1), cbind(rep(1, length(called)), 1), names = called, title = "a \\"title\\" \\\\", coalitions = TRUE)
latin <- "name = \\"\\xe9\\""
Encoding(latin) <- "latin1"
spelled <- council(game = c("quota = 1", "[[member]]", latin, "weight = 1"))
its <- c(its, list(show(hard), paste(c("coalition", attr(hard, "coalitions")[[1]]), collapse = "\\t"), show(spelled)))
its <- c(its, list(paste(identical(hard$name, called), identical(spelled$name, "\\u00e9"))))
out <- file("seen.txt", "wb")
writeLines(unlist(its), out, useBytes = TRUE)
close(out)
"""


def check(locale):
    """Runs the package's own check, which also installs it; returns its last words."""
    # (neither needs a network)
    words = {"LC_ALL": locale, "COUNCIL_PROGRAM": PROGRAM, "_R_CHECK_CRAN_INCOMING_REMOTE_": "false", "_R_CHECK_SYSTEM_CLOCK_": "false"}
    env = {**os.environ, **words, "PATH": os.path.dirname(PROGRAM) + ":" + os.environ["PATH"]}
    static = f"{TOP}/crates/council_c/out/libcouncil.a"
    if os.path.exists(static) and not subprocess.run([f"{TOP}/tools/shared.sh", static, f"{TEMP}/libcouncil.so"], capture_output=True).returncode:
        env["COUNCIL_LIBRARY"] = f"{TEMP}/libcouncil.so"
    has_latex = all(map(shutil.which, ("pdflatex", "qpdf", "gs")))
    subprocess.run(["R", "CMD", "build", *([] if has_latex else ["--no-build-vignettes"]), f"{TOP}/r/council"], cwd=TEMP, env=env, capture_output=True)
    made = [it for it in os.listdir(TEMP) if it.endswith(".tar.gz")]
    ran = subprocess.run(["R", "CMD", "check", "--as-cran", "--no-manual", *([] if has_latex else ["--ignore-vignettes"]), *made], cwd=TEMP, env=env, capture_output=True)
    return ran.stdout.decode("utf-8", "replace")


def make_games():
    """Returns the paths of game files, with their reports by the oracle."""
    rng, made = random.Random(2), []
    for at in range(20):
        names = rng.sample(HOSTILE, rng.randint(1, 8))
        rules = [[rng.choice([1, 2, 3, rng.randint(1, 10**12)]) for _ in names] for _ in range(rng.randint(1, 4))]
        quotas = [rng.randint(1, sum(it)) for it in rules]
        path = put(f"game{at}.toml", write_game(names, quotas, list(zip(*rules)), "T"))
        made.append((path, Report.read(oracle.report(oracle.Game("T", names, list(zip(quotas, rules))), with_swings=True))))
    for name in ("eu-27-nice", "share-register", "us-federal"):
        with open(f"{TOP}/examples/{name}.tsv", encoding="utf-8") as it:
            made.append((f"{TOP}/examples/{name}.toml", Report.read(it)))
    return made


def is_close(text, exact):
    """Returns whether a number of R is the exact one, up to two units in its last place."""
    return abs(float(text) - float(exact)) <= 2**-51 * float(exact)


@unittest.skipUnless(shutil.which("Rscript"), "this machine has no Rscript")
class Package(Tests):
    def test_R_CMD_check(self):
        told = check("C.UTF-8")
        self.assertEqual((re.findall(r"^Status: (.*)$", told, re.M) or ["none"])[0], "OK", re.findall(r"^\* .* \.\.\. (?!OK).*(?:\n(?!\*).*)*", told, re.M))

    def test_games(self):
        """In any locale it reads names and numbers as they are."""
        if not os.path.exists(f"{TEMP}/council.Rcheck"):
            check("C.UTF-8")
        games = make_games()
        put("show.R", SCRIPT)
        put("names.txt", "".join(f"{name}\n" for name in HOSTILE))
        os.makedirs(f"{TEMP}/a folder", exist_ok=True)
        for locale in "C.UTF-8", "C":
            # (the names of the package's own files are quoted for the shell)
            env = {**os.environ, "LC_ALL": locale, "COUNCIL_PROGRAM": PROGRAM, "TMPDIR": f"{TEMP}/a folder"}
            ran = subprocess.run(["Rscript", "--vanilla", "show.R", *(path for path, _ in games)], cwd=TEMP, env=env, capture_output=True)
            self.assertEqual(ran.returncode, 0, ran.stderr.decode("utf-8", "replace"))
            with open(f"{TEMP}/seen.txt", encoding="utf-8", newline="\n") as it:
                seen = [line.rstrip("\n").split("\t") for line in it]
            for _, report in games:
                self.assertEqual(seen.pop(0), ["game", report.title, str(report.minimal)])
                for it in report.members:
                    cells = seen.pop(0)
                    self.assertEqual(len(cells), len(it))
                    for text, value in zip(cells, it):
                        exact = write_fraction(value) if isinstance(value, Fraction) else str(value)
                        self.assertTrue(is_close(text, value) if isinstance(value, float) else text == exact, (text, value))
            head, *hard, first, _, spelled, are_same = seen
            self.assertEqual((head, [it[0] for it in hard]), (["game", 'a "title" \\', str(len(HOSTILE))], HOSTILE))
            self.assertEqual((first, spelled[0], are_same), (["coalition", *HOSTILE[:-1]], "\xe9", ["TRUE TRUE"]))


main("R")
