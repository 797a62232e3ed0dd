#!/usr/bin/env python3
"""Makes the pictures of a week's and a month's page that README.md and docs/RULES.md show: docs/pictures.py [FOLDER].
Needs Chromium, SciPy, and the library (c/build.sh, or an installed nushbaret)."""
import os
import pathlib
import re
import shutil
import subprocess
import sys
import tempfile

TOP = pathlib.Path(__file__).resolve().parents[1]
PICTURES = TOP / "docs/pictures"
BROWSERS = ("chromium", "chromium-browser", "google-chrome")
WEEK = ["week.csv", "--places", "week_places.csv", "--tasks", "week_tasks.csv", "--groups", "week_days.csv"]
MONTH = ["month.csv", "--places", "month_places.csv", "--tasks", "month_tasks.csv", "--groups", "month_days.csv",
         "--rules", "month_rules.csv"]
# Each picture's words of the command, its width, and the part of the page down to whose end it goes.
PAGES = {"week": (WEEK, 990, "html"), "month": (MONTH, 1100, ".sheet")}
POLICY = re.compile('<meta http-equiv="Content-Security-Policy"[^>]*>')
MEASURE = "<script>document.title = document.querySelector('{part}').getBoundingClientRect().bottom</script></body>"


def run(page, *words):
    """What Chromium prints for a page in a light room."""
    browser = next(filter(None, map(shutil.which, BROWSERS)), None)
    if browser is None:
        sys.exit(f"none of {', '.join(BROWSERS)} is installed")
    words = ["--headless", "--no-sandbox", "--disable-gpu", "--hide-scrollbars",
             "--blink-settings=preferredColorScheme=1", *words]
    return subprocess.run([browser, *words, page.as_uri()], stdout=subprocess.PIPE, stderr=subprocess.DEVNULL,
                          check=True).stdout.decode()


def height(page, width, part):
    """How high a page is to a part's end, measured by a script that pages themselves can't have."""
    copy = page.with_name("measured.html")
    text = POLICY.sub("", page.read_text("utf-8"))
    copy.write_text(text.replace("</body>", MEASURE.replace("{part}", part)), "utf-8")
    title = re.search("<title[^>]*>(.*?)</title>", run(copy, f"--window-size={width},600", "--dump-dom"))
    return round(float(title[1])) + (30 if part == "html" else 10)


def main():
    pictures = pathlib.Path(sys.argv[1]) if len(sys.argv) > 1 else PICTURES
    path = os.pathsep.join(filter(None, (str(TOP / "python"), os.environ.get("PYTHONPATH"))))
    with tempfile.TemporaryDirectory() as folder:
        for name, (words, width, part) in PAGES.items():
            page = pathlib.Path(folder) / f"{name}.html"
            subprocess.run([sys.executable, "-m", "nushbaret", *words, "--html", str(page)], cwd=TOP / "examples",
                           env={**os.environ, "PYTHONPATH": path}, stdout=subprocess.DEVNULL, check=True)
            run(page, f"--window-size={width},{height(page, width, part)}",
                f"--screenshot={(pictures / (name + '.png')).resolve()}")


if __name__ == "__main__":
    main()
