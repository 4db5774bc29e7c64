#!/usr/bin/env python3
"""Measures how long docs/council.html takes in Chromium from a key to its table:

    taskset -c 0 bench/page.py [EXAMPLE..]

Prints for each example, such as eu-27-nice, the median and the longest of 11 keys in milliseconds, once with the indices
that are chosen at first and once with all. It wants Debian's packages chromium-driver and python3-selenium.
"""
import os
import statistics
import sys

from selenium import webdriver

TOP = os.path.dirname(os.path.dirname(os.path.realpath(__file__)))
# types a number into a cell, and gives the milliseconds until the table has it
TYPE = """const [text, done] = arguments, cell = document.querySelector('[data-cell="weight 0 0"]'), table = document.querySelector('#powers tbody');
new MutationObserver((_, it) => { if (table.rows[0].cells[1].textContent === text) it.disconnect(), requestAnimationFrame(() => done(performance.now() - start)); }).observe(table, {childList: true});
const start = performance.now();
cell.value = text;
cell.dispatchEvent(new Event('input', {bubbles: true}));"""
OPEN = """const [name, text, done] = arguments, dataTransfer = new DataTransfer(), table = document.querySelector('#powers tbody');
new MutationObserver((_, it) => { if (document.querySelector('#notice').textContent.includes(name)) it.disconnect(), done(); }).observe(table, {childList: true});
dataTransfer.items.add(new File([text], name));
document.body.dispatchEvent(new DragEvent('drop', {dataTransfer, bubbles: true, cancelable: true}));"""


def main(names):
    options = webdriver.ChromeOptions()
    options.binary_location = "/usr/bin/chromium"
    for it in ("--headless=new", "--no-sandbox", "--disable-dev-shm-usage", "--window-size=1280,1000"):
        options.add_argument(it)
    browser = webdriver.Chrome(service=webdriver.chrome.service.Service("/usr/bin/chromedriver"), options=options)
    browser.set_script_timeout(60)
    try:
        for name in names:
            browser.get(f"file://{TOP}/docs/council.html")
            with open(f"{TOP}/examples/{name}.toml", encoding="utf-8") as it:
                browser.execute_async_script(OPEN, name, it.read())
            for which in ("the first indices", "all indices"):
                first = int(browser.execute_script("return document.querySelector('[data-cell=\"weight 0 0\"]').value"))
                times = [browser.execute_async_script(TYPE, str(first + 1 + at % 2)) for at in range(12)][1:]
                print(f"{name}, {which}: {statistics.median(times):.0f} ms, at most {max(times):.0f} ms")
                browser.execute_script("for (const it of document.querySelectorAll('#choice input:not(:checked)')) it.click()")
    finally:
        browser.quit()


main(sys.argv[1:] or ["eec-1958", "eu-27-nice", "eu-27-lisbon"])
