#!/usr/bin/env python3
"""The page in Chromium, as a person uses it:

    page.py PAGE PROGRAM

opens PAGE from a file, types, pastes, opens, drops, varies, stops and takes away; no request is made, and the console
has no error. Prints a line for each test.
"""
import base64
import json
import pathlib
import subprocess
import sys
import tempfile
import unittest

from selenium import webdriver
from selenium.webdriver.common.by import By
from selenium.webdriver.common.keys import Keys
from selenium.webdriver.support.ui import WebDriverWait

TOP = pathlib.Path(__file__).resolve().parents[2]
EXAMPLES = TOP / "examples"
sys.path.insert(0, str(TOP / "tests"))
import lines  # noqa: E402

PAGE, PROGRAM = sys.argv[1:]
del sys.argv[1:]
HOSTILE = ["<script>alert(1)</script>", "<img src=x onerror=alert(1)>", "\u202eright to left", "x" * 64, '"quoted" & \'so\'', "שלום", "a,b;c", "=1+1", "constructor"]
# 40 members of weights of many digits under two rules, which take too many states
HARD = ["", "", [["a", ">50%"], ["b", ">50%"]], [[f"m{at}", str((at * 7919 + 13) ** 3 % 10**11), str((at * 104729 + 5) ** 3 % 10**11)] for at in range(40)]]


SCRIPTS = {
    "click": "document.querySelector(arguments[0]).click()",
    "choose": "const it = document.querySelector(arguments[0]); it.value = arguments[1]; ['input', 'change'].forEach(name => it.dispatchEvent(new Event(name, {bubbles: true})))",
    "paste": """const it = document.querySelector(`[data-cell="${arguments[0]}"]`), clipboardData = new DataTransfer();
        clipboardData.setData("text/plain", arguments[1]); it.dispatchEvent(new ClipboardEvent("paste", {clipboardData, bubbles: true, cancelable: true}));""",
    "drop": """const dataTransfer = new DataTransfer(); dataTransfer.items.add(new File([arguments[1]], arguments[0]));
        document.body.dispatchEvent(new DragEvent("drop", {dataTransfer, bubbles: true, cancelable: true}));""",
    "table": "return [...document.querySelectorAll('#powers tbody tr')].map(row => [...row.cells].map(it => it.innerText))",
    "names": "return [...document.querySelectorAll('#editor .name')].map(it => it.value)",
    "text": "return document.querySelector(arguments[0]).innerText",
}


class Page(unittest.TestCase):
    @classmethod
    def setUpClass(cls):
        options = webdriver.ChromeOptions()
        options.binary_location = "/usr/bin/chromium"
        for it in ("--headless=new", "--no-sandbox", "--disable-dev-shm-usage", "--window-size=1280,1000", "--disable-background-networking"):
            options.add_argument(it)
        options.set_capability("goog:loggingPrefs", {"browser": "ALL", "performance": "ALL"})
        cls.folder = pathlib.Path(tempfile.mkdtemp())
        cls.browser = webdriver.Chrome(service=webdriver.chrome.service.Service("/usr/bin/chromedriver"), options=options)
        cls.addClassCleanup(cls.browser.quit)
        cls.run_js, cls.command = cls.browser.execute_script, cls.browser.execute_cdp_cmd
        cls.command("Browser.setDownloadBehavior", {"behavior": "allow", "downloadPath": str(cls.folder)})

    def setUp(self, link=""):
        self.browser.get("about:blank")
        self.browser.get(f"file://{PAGE}{link}")
        self.wait(lambda: self.table() if not link else self.names())

    def wait(self, is_so):
        WebDriverWait(self.browser, 20, 0.02, [Exception]).until(lambda _: is_so(), f"line {sys._getframe(1).f_lineno}")

    def find(self, what):
        return self.browser.find_element(By.CSS_SELECTOR, what if what[0] in "#[" else f'[data-cell="{what}"]')

    def __getattr__(self, name):
        if name not in SCRIPTS:
            raise AttributeError(name)
        return lambda *words: self.run_js(SCRIPTS[name], *words)

    def waits_for(self, what, text):
        WebDriverWait(self.browser, 20, 0.02).until(lambda _: text in self.text(what), f"{text} in {what}")

    def column(self, at):
        return [it[at] for it in self.table()]

    def type(self, cell, text):
        self.find(cell).send_keys(Keys.CONTROL, "a")
        self.find(cell).send_keys(text)

    def taken(self, kind):
        for it in self.folder.iterdir():
            it.unlink()
        self.click(f"[data-take={kind}]")
        self.wait(lambda: [it for it in self.folder.iterdir() if it.suffix in (".toml", ".tsv", ".csv", ".svg")])
        return next(self.folder.iterdir()).read_bytes().decode()

    def report(self, *words, **more):
        return subprocess.run([PROGRAM, "--swings", *words], capture_output=True, encoding="utf-8", check=True, **more).stdout

    def test_a_change_of_a_weight_or_a_quota_changes_the_table(self):
        self.assertEqual((self.column(0), self.column(3)), (["Anna vetoer", "Bruno", "Chris"], ["0.5000", "0.2500", "0.2500"]))
        self.type("weight 2 0", "60")
        self.wait(lambda: self.table()[2][1] == "60" and self.table()[0][3] == "0.3333")
        self.type("weight 2 0", "1")
        meanings = {"51": "51 of 100", ">50%": "51 of 100", "65%": "65 of 100", "2/3": "67 of 100", ">2/3": "67 of 100", "heads:2": "2 of 3 members", "heads:>50%": "2 of 3 members", "99.5": "99.5 of 100.0"}
        for text, meaning in meanings.items():
            self.type("quota 0", text)
            self.waits_for("[id='meaning 0']", meaning)
            self.wait(lambda: not self.text("#problem"))

    def test_what_is_wrong_is_explained_at_its_cell(self):
        for cell, text, why in [("weight 1 0", "x", "not a number"), ("weight 1 0", "1,000", "two ways"), ("weight 1 0", Keys.BACKSPACE, "missing"), ("quota 0", "500", "at most the total"), ("quota 0", "0", "at least 1"),
                                ("name 1", "Anna", "Row 1"), ("name 1", Keys.BACKSPACE, "needs a name"), ("name 1", "é" * 33, "64 bytes"), ("weight 1 0", "9999999999999", "at most"), ("title", "x" * 201, "200 bytes")]:
            self.setUp()
            self.type(cell, text)
            self.wait(lambda cell=cell: self.find(cell).get_attribute("aria-invalid") == "true")
            self.assertIn(why, self.text(f"#{self.find(cell).get_attribute('aria-describedby')}"))
            self.assertEqual((len(self.table()), self.find("#report").get_attribute("class")), (3, "stale"))

    def test_rules_ways_and_marks(self):
        self.click("#add-rule")
        self.waits_for("#summary", "all rules")
        self.find("ways").send_keys("1 2")
        self.wait(lambda: "rule 1, or rule 2" in self.text("#summary") and "Improper" in self.text("#summary"))
        self.find("ways").send_keys("9")
        self.waits_for("#problem-ways", "no rule 29")
        self.click("[data-remove-rule='1']")
        self.waits_for("#summary", "With a veto: Anna")
        self.type("weight 0 0", "90")
        self.wait(lambda: "Dictator: Anna" in self.text("#summary") and "dummy): Bruno, Chris" in self.text("#summary"))
        self.type("quota 0", "10")
        self.waits_for("#summary", "Improper")

    def test_rows_by_the_keyboard(self):
        self.find("weight 2 0").send_keys(Keys.ENTER, "Dora", Keys.TAB, "7")
        self.wait(lambda: self.table()[3][:2] == ["Dora", "7"])
        self.find("[data-remove='0']").send_keys(Keys.ENTER)
        self.wait(lambda: len(self.table()) == 3)
        self.find("#undo").send_keys(Keys.SPACE)
        self.wait(lambda: len(self.table()) == 4)

    def test_a_table_is_pasted(self):
        for text in ["Party\tSeats\nA\t40\nB\t35\nC\t25\n", "A;40\nB;35\nC;25", '"A",40\n"B",35\n"C",25', "Nr;40\r\nNo;35\r\nOh;25\r\n"]:
            self.setUp()
            self.paste("weight 1 0", text)
            self.wait(lambda: self.column(1) == ["40", "35", "25"])
        self.paste("weight 1 0", "36\n24")
        self.wait(lambda: self.column(1) == ["40", "36", "24"])
        self.paste("name 0", "Holder\tShare\tHeads\nA\t16.50%\t1\nB\t50.25%\t1\nC\t33.25%\t1")
        self.wait(lambda: self.column(1) == ["16.50", "50.25", "33.25"])

    def test_hostile_names_are_text(self):
        self.paste("name 0", "\n".join(f"{it}\t{at + 1}" for at, it in enumerate(HOSTILE)))
        self.wait(lambda: len(self.table()) == len(HOSTILE))
        self.assertEqual(self.names(), HOSTILE)
        self.run_js("for (const it of document.querySelectorAll('details')) it.open = true")
        self.waits_for("#coalitions", "coalitions.")
        self.assertEqual(self.run_js("return document.querySelectorAll('main script, main img').length"), 0)
        self.assertIn("<script>alert(1)</script>", self.taken("game"))
        self.assertIn("&lt;script>alert(1)", self.taken("bars").replace("&gt;", ">"))

    def test_files_and_examples_are_opened(self):
        for name in ("board.toml", "eu-27-nice.toml", "two-of-three.toml", "board.txt"):
            self.drop(name, (EXAMPLES / name).read_text("utf-8"))
            self.waits_for("#notice", name)
            self.wait(lambda: not self.text("#problem") and len(self.table()) == len(self.names()))
            self.assertEqual(self.taken("report"), self.report(str(EXAMPLES / name)))
        self.drop("eec.tsv", (EXAMPLES / "eec-1958.tsv").read_text("utf-8"))
        self.wait(lambda: self.names()[0] == "Germany" and len(self.table()) == 6)
        self.find("#file").send_keys(str(EXAMPLES / "holler-1982.toml"))
        self.wait(lambda: len(self.table()) == 5)
        self.drop("t.csv", "Name,Votes\nA,2\nB,1\n")
        self.wait(lambda: self.names() == ["A", "B"])
        for text, why in [("quota = 1\nx = 2\n", "unknown key"), ("[9; 1, 1]", "quota out of range"), ("hello", "not TOML"), ("members\t2\nquota\t1\n", "not whole")]:
            self.drop("bad.toml", text)
            self.waits_for("#notice", why)
        self.assertEqual(self.names(), ["A", "B"])
        for title in self.run_js("return [...document.querySelector('#examples').options].slice(1).map(it => it.value)"):
            self.choose("#examples", title)
            self.wait(lambda title=title: f"Opened {title}." == self.text("#notice"))
            self.wait(lambda: self.run_js("return [...document.querySelectorAll('#powers td:first-child bdi')].map(it => it.textContent)") == self.names())

    def test_what_is_shown(self):
        self.choose("#form", "fraction")
        self.assertEqual(self.table()[0][3], "1/2")
        self.click("[data-column='1']")
        self.click("[data-column='1']")
        self.assertEqual(self.column(1), ["1", "49", "50"])
        self.click("#choice [value=banzhaf]")
        self.click("#choice [value=power_to_initiate]")
        self.wait(lambda: "Banzhaf" not in self.text("#powers thead") and self.column(6) == ["1/5", "1/5", "3/5"])
        self.type("weight 1 0", "x")
        self.click("#coalitions summary")
        self.wait(lambda: "Anna, Bruno" in self.text("#coalitions") and "2 coalitions" in self.text("#coalitions"))
        self.setUp()
        self.click("#keep")
        self.type("weight 2 0", "60")
        self.wait(lambda: "−0.1667" in self.table()[0][3] and "+0.0833" in self.table()[1][3])
        self.click("#forget")
        self.wait(lambda: self.table()[0][3] == "0.3333")

    def test_quotas_are_varied(self):
        self.choose('[data-cell="slide 0"]', "100")
        self.wait(lambda: self.find("quota 0").get_attribute("value") == "100" and self.table()[2][3] == "0.3333")
        self.click("#vary summary")
        self.click("#vary-start")
        self.waits_for("#vary-note", "100 quotas. The")
        self.assertEqual(self.run_js("return document.querySelectorAll('#vary path').length"), 3)
        self.assertIn("<svg", self.taken("lines"))

    def test_what_takes_long_or_has_41_members(self):
        self.setUp("#game=" + base64.urlsafe_b64encode(json.dumps(HARD).encode()).decode().rstrip("="))
        self.waits_for("#busy", "Computing")
        self.click("#stop")
        self.waits_for("#problem", "Stopped")
        self.click("[data-remove='0']")
        self.waits_for("#busy", "Computing")
        self.paste("name 0", "A\t2\nB\t1\n")
        self.wait(lambda: len(self.table()) == 2 and not self.text("#problem"))
        self.paste("name 0", "".join(f"m{it}\t{it}\n" for it in range(1, 42)))
        self.wait(lambda: "41 members" in self.text("#problem") and "game before" in self.text("#problem"))
        self.assertEqual(len(self.table()), 2)

    def test_what_is_taken_away(self):
        self.type("name 1", 'B "x"')
        self.wait(lambda: 'B "x"' in self.table()[1][0])
        self.assertEqual(self.taken("report"), self.report("-", input=self.taken("game")))
        self.assertIn('\n"B ""x""",49,1,0.250000,', self.taken("csv"))
        self.assertIn('xmlns="http://www.w3.org/2000/svg"', self.taken("bars"))
        self.click("[data-take=link]")
        link = self.find("#link").get_attribute("value")
        self.browser.switch_to.new_window("window")
        self.browser.get(link)
        self.wait(lambda: self.names() == ["Anna", 'B "x"', "Chris"] and len(self.table()) == 3)
        self.browser.close()
        self.browser.switch_to.window(self.browser.window_handles[0])
        self.setUp("#game=bm90IGEgZ2FtZQ")
        self.wait(lambda: self.names() == ["Anna", "Bruno", "Chris"])

    def test_labels_widths_and_colors(self):
        self.assertEqual(self.run_js("return [...document.querySelectorAll('input:not([hidden]), select, button')].filter(it => !(it.labels?.length || it.ariaLabel || it.textContent)).map(it => it.outerHTML)"), [])
        self.drop("nice.toml", (EXAMPLES / "eu-27-nice.toml").read_text("utf-8"))
        self.wait(lambda: len(self.table()) == 27)
        for wide, scheme in ((390, "light"), (768, "dark"), (1280, "light"), (390, "dark")):
            self.command("Emulation.setDeviceMetricsOverride", {"width": wide, "height": 900, "deviceScaleFactor": 1, "mobile": wide == 390})
            self.command("Emulation.setEmulatedMedia", {"features": [{"name": "prefers-color-scheme", "value": scheme}]})
            self.assertLessEqual(self.run_js("return document.documentElement.scrollWidth"), wide)
        self.command("Emulation.clearDeviceMetricsOverride", {})

    def test_z_no_request_and_no_error(self):
        self.assertEqual([it for it in self.browser.get_log("browser") if it["level"] in ("SEVERE", "WARNING")], [])
        sent = [it["message"] for it in self.browser.get_log("performance") if '"Network.requestWillBeSent"' in it["message"]]
        self.assertEqual([it for it in sent if '"url":"http' in it], [])


sys.exit(not lines.run("the page: "))
