#!/usr/bin/env python3
"""What a browser shows of the pages and pictures of council-tools: at 390, 768 and 1280 pixels,
light and dark.

Chromium lays out each page in a frame of that width; a script in it tells the rectangles of
cells, bars and numbers.
"""
import html
import json
import os
import re
import shutil
import subprocess
import unittest
from itertools import combinations

from cases import HOSTILE, PROGRAM, TEMP, TOP, Run, Tests, hostile_game, main, put, report

CHROMIUM = shutil.which("chromium") or shutil.which("chromium-browser") or shutil.which("google-chrome")
WIDTHS = [390, 768, 1280]
SCHEMES = {"light": 1, "dark": 0}
SHOWN = [re.sub("[\ufffe\u2028\u202e\u0085]", "\ufffd", it) for it in HOSTILE]
LOOK = """<!DOCTYPE html><meta charset="utf-8">FRAMES<pre id="seen"></pre><script>
const box = it => { const at = it.getBoundingClientRect(); return [at.left, at.right, at.top, at.bottom]; };
const look = page => {
  const table = page.querySelector("table.members"), rows = [...table.tBodies[0].rows], wide = table.parentNode;
  const heads = [...table.querySelectorAll("th button")], names = () => [...table.tBodies[0].rows].map(row => row.cells[0].textContent);
  const cells = row => [...row.cells].map(it => {
    const [left, right, top, bottom] = box(it), hit = page.elementFromPoint((left + right) / 2, (top + bottom) / 2);
    return {left, right, top, text: it.textContent, seen: it.contains(hit)};
  });
  const seen = {wide: page.documentElement.scrollWidth, client: page.documentElement.clientWidth, scripts: page.scripts.length};
  seen.dark = page.defaultView.matchMedia("(prefers-color-scheme: dark)").matches;
  seen.heads = heads.map(it => it.textContent); seen.first = cells(rows[0]); seen.last = rows.map(row => box(row.cells[2])[1]);
  wide.scrollLeft = 100000; seen.scrolled = cells(rows[0]); wide.scrollLeft = 0;
  const fraction = table.querySelector(".fraction").getBoundingClientRect();
  seen.stacked = fraction.height > 20 && table.querySelector(".fraction i").getBoundingClientRect().top > fraction.top + 8;
  seen.bars = [...page.querySelectorAll(".bars .track")].map(it => ({bar: box(it.querySelector(".bar")), value: box(it.querySelector(".value")), text: it.textContent}));
  seen.colors = [...page.querySelectorAll(".key")].map(it => page.defaultView.getComputedStyle(it).backgroundColor);
  seen.ground = page.defaultView.getComputedStyle(page.body).backgroundColor;
  seen.text = page.body.innerText;
  seen.before = names(); heads[1].click(); seen.down = names(); heads[1].click(); seen.up = names(); heads[0].click(); seen.byName = names();
  return seen;
};
const draw = page => ({
  texts: [...page.querySelectorAll("text")].map(it => ({box: box(it), text: it.textContent, kind: it.getAttribute("class")})),
  bars: [...page.querySelectorAll("rect.bar")].map(box), all: box(page.querySelector("svg")),
});
window.onload = () => {
  const found = [...document.querySelectorAll("iframe")].map(it => (it.dataset.kind === "page" ? look : draw)(it.contentDocument));
  document.getElementById("seen").textContent = JSON.stringify(found).replace(/[\\u007f-\\uffff]/g, it => "\\\\u" + it.charCodeAt(0).toString(16).padStart(4, "0"));
};
</script>"""


def show(frames, scheme):
    """Returns what Chromium shows of each frame, (kind, width, text); None if it shows nothing."""
    parts = [f'<iframe data-kind="{kind}" width="{width}" height="1200" srcdoc="{html.escape(text)}"></iframe>' for kind, width, text in frames]
    path = put("look.html", LOOK.replace("FRAMES", "".join(parts)))
    words = [CHROMIUM, "--headless", "--no-sandbox", "--disable-gpu", f"--user-data-dir={TEMP}/browser", f"--blink-settings=preferredColorScheme={SCHEMES[scheme]}", "--window-size=1400,900", "--dump-dom", f"file://{path}"]
    try:
        ran = subprocess.run(words, capture_output=True, timeout=180, env={**os.environ, "HOME": TEMP})
    except subprocess.TimeoutExpired:
        return None
    text = re.search(r'<pre id="seen">(.+?)</pre>', ran.stdout.decode("utf-8", "replace"), re.S)
    return json.loads(html.unescape(text[1])) if text else None


def measure_light(color):
    """Returns a color of a style as three numbers from 0 to 1 that are proportional to light."""
    its = [int(it) / 255 for it in re.findall(r"\d+", color)[:3]]
    return [it / 12.92 if it <= 0.04045 else ((it + 0.055) / 1.055) ** 2.4 for it in its]


def measure_contrast(one, other):
    """Returns the contrast of two colors, as the WCAG define it: 1 to 21."""
    low, high = sorted(sum(part * it for part, it in zip((0.2126, 0.7152, 0.0722), measure_light(color))) + 0.05 for color in (one, other))
    return high / low


def measure_difference(one, other):
    """Returns how different two colors look, in CIELAB; 2 is hardly seen."""
    def lab(color):
        red, green, blue = measure_light(color)
        its = [(0.4124 * red + 0.3576 * green + 0.1805 * blue) / 0.9505, 0.2126 * red + 0.7152 * green + 0.0722 * blue, (0.0193 * red + 0.1192 * green + 0.9505 * blue) / 1.089]
        x, y, z = [it ** (1 / 3) if it > 0.008856 else 7.787 * it + 16 / 116 for it in its]
        return 116 * y - 16, 500 * (x - y), 200 * (y - z)
    return sum((a - b) ** 2 for a, b in zip(lab(one), lab(other))) ** 0.5


def are_apart(one, other):
    """Returns whether two rectangles do not touch; a thousandth of a pixel is none."""
    return one[1] <= other[0] + 0.001 or other[1] <= one[0] + 0.001 or one[3] <= other[2] + 0.001 or other[3] <= one[2] + 0.001


ORDER = ["Germany", "France", "Italy", "Belgium", "Netherlands", "Luxembourg"]
FUND = "Holder,Share held\nUnited States,46.50%\nJapan,26.14%\nChina,16.08%\nGermany,11.28%\n"


@unittest.skipUnless(CHROMIUM, "this machine has no chromium")
class Browser(Tests):
    @classmethod
    def setUpClass(cls):
        fund = Run("from-table", "85%", "heads:3", "--source", "a report & more", "--title", "A fund", input=FUND).out
        games = {**{name: open(f"{TOP}/examples/{file}.toml", encoding="utf-8").read() for name, file in [("one rule", "eec-1958"), ("two rules", "ca-amendment"), ("swings", "un-security-council")]}, "four rules": hostile_game(4), "names and units": fund}
        cls.pages, cls.pictures = {}, {}
        sweeps = {"one rule": [], "two rules": ["--rule", "2", "--from", "5"], "four rules": ["--from", "60", "--to", "66"], "names and units": ["--from", ">50%", "--step", "1"], "swings": ["--from", "39", "--index", "penrose"]}
        for name, game in games.items():
            path, data = put("game.toml", game), put("game.tsv", report(game, *["--swings"] * (name == "swings")))
            cls.pages[name] = Run("page", "--program", PROGRAM, "--game", path, data).out
            cls.pictures[f"bars, {name}"] = Run("bars", "--game", path, data).out
            Run("sweep", "--program", PROGRAM, path, *sweeps[name], "--picture", f"{TEMP}/sweep.svg")
            with open(f"{TEMP}/sweep.svg", encoding="utf-8") as it:
                cls.pictures[f"sweep, {name}"] = it.read()

    def show(self, frames, scheme):
        found = show(frames, scheme)
        if not found:
            self.skipTest("Chromium shows no page here")
        self.assertEqual(len(found), len(frames))
        return found

    def test_pages(self):
        its = [(name, width) for name in self.pages for width in WIDTHS]
        for scheme in SCHEMES:
            found = self.show([("page", width, self.pages[name]) for name, width in its], scheme)
            for (name, width), it in zip(its, found):
                with self.subTest(name, width=width, scheme=scheme):
                    self.check_page(name, width, it)
                    self.assertEqual(it["dark"], scheme == "dark")

    def check_page(self, name, width, it):
        first, after, most = it["first"], it["scrolled"], it["client"]
        self.assertTrue(it["wide"] <= most <= width, "something is wider than the window")
        self.assertTrue(all(cell["left"] >= 0 and cell["right"] <= most and cell["seen"] for cell in first[:3]) and max(it["last"]) <= most, "the name or an index is out of sight")
        self.assertTrue(after[0]["left"] == first[0]["left"] and after[0]["seen"] and after[-1]["seen"] and after[-1]["right"] <= most and after[0]["right"] <= after[-1]["left"], "after scrolling, the name or the last column is out of sight")
        self.assertTrue(width < 1280 or name in ("four rules", "swings") or all(cell["seen"] and cell["right"] <= most for cell in first), "a column is out of sight")
        self.assertTrue(all(bar["value"][1] <= most and bar["bar"][1] <= bar["value"][0] and bar["value"][1] - bar["value"][0] > 15 for bar in it["bars"]), "a bar has no number")
        self.assertTrue(all(are_apart(one["value"], other["bar"]) and are_apart(one["value"], other["value"]) for one, other in zip(it["bars"], it["bars"][1:])), "a number touches a bar")
        self.assertGreaterEqual(min(measure_difference(one, other) for one, other in combinations(it["colors"], 2)), 20)
        self.assertGreaterEqual(min(measure_contrast(color, it["ground"]) for color in it["colors"]), 3)
        self.assertTrue(it["stacked"] and "exactly" in it["heads"][-1] and "exactly" in it["heads"][-2], "fractions are not drawn")
        if name == "one rule":
            lengths = [bar["bar"][1] - bar["bar"][0] for bar in it["bars"]]
            self.assertTrue(lengths[0] > lengths[1] > lengths[2] > 50 and lengths[-1] == 0)
            self.assertEqual((it["before"], it["down"], it["up"], it["byName"]), (ORDER, ORDER, ["Luxembourg", "Belgium", "Netherlands", "Germany", "France", "Italy"], sorted(ORDER)))
        if name == "four rules":
            self.assertEqual((it["scripts"], it["before"]), (1, SHOWN))
        if name == "names and units":
            texts = ["Source of the data: a report & more", "85.00% of 100.00% under rule 1 (Share held) and 3 of 4 (75%) under rule 2 (heads)", "46.50%", 'share of "Share held", rule 1']
            self.assertEqual([text for text in texts if text not in it["text"]], [])

    def test_pictures(self):
        for name, it in zip(self.pictures, self.show([("picture", 1400, text) for text in self.pictures.values()], "light")):
            with self.subTest(name):
                texts = [text for text in it["texts"] if text["box"][1] > text["box"][0]]
                self.assertEqual([text for text in texts if text["box"][0] < it["all"][0] or text["box"][1] > it["all"][1] or text["box"][3] > it["all"][3]], [])
                touching = [(one["text"], other["text"]) for one, other in combinations(texts, 2) if not are_apart(one["box"], other["box"])]
                touching += [one["text"] for one in texts for bar in it["bars"] if bar[1] > bar[0] and not are_apart(one["box"], bar)]
                self.assertEqual((touching, bool(texts)), ([], True))


main("in a browser")
