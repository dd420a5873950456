"""The page of the archive, over files that the reports made: what it draws, and which files it refuses."""

import itertools

from tests.browser.checks import has, holds, same

# every byte of a name is in one of these; the maps of two runs are equal once
LONG = ["ABCDEFGHIJKLMNOPQRSTUVWXYZ.abcde", "fghijklmnopqrstuvwxyz_0123456789", "-.-"]
HISTORY = f"{LONG[0]}\t1\t0.0000\n{LONG[1]}\t50\t1.0000\n{LONG[2]}\t49\t0.2500\n"
EXPORT = f"""campaign,run,group,topics,map
{LONG[0]},{LONG[0]},{LONG[1]},50,0.5000
{LONG[0]},Y,{LONG[1]},50,0.2500
{LONG[0]},-1,{LONG[1]},50,0.2500
{LONG[0]},gone,grp,50,0.9000
{LONG[1]},Y,grp,50,0.3000
{LONG[1]},{LONG[0]},grp,50,0.2900
{LONG[1]},-1,grp,50,0.3100
{LONG[2]},{LONG[2]},grp,1,0.0000
"""
# each line between the two orders, and where the rows are that it begins and ends at, in pixels from the picture's top
LINES = """
  const picture = document.querySelector(".orders svg").getBoundingClientRect();
  const middles = [...document.querySelectorAll(".orders ol")].map((list) => Object.fromEntries(
    [...list.children].map((row) => {
      const place = row.getBoundingClientRect();
      return [row.title, place.top + place.height / 2 - picture.top];
    })));
  return [...document.querySelectorAll(".orders line")].map((line) => {
    const run = line.textContent.split(": ")[0];
    const ends = [line.y1.baseVal.value, line.y2.baseVal.value];
    const far = Math.max(...middles.map((list, side) => Math.abs(list[run] - ends[side])));
    return [run, line.getAttribute("class"), far];
  });
"""
HISTORY_ROWS = "table[aria-label='The run by release'] tbody tr"
COMPARISON_ROWS = "table[aria-label='The runs of both releases'] tbody tr"
DOTS = """
  return [...document.querySelectorAll(".picture circle")].map((dot) => [dot.cx.baseVal.value, dot.cy.baseVal.value]);
"""


def draws(page, address, file, looks):
    """Opens the page in a tab of its own, without a key; `file` makes a file of a name and a text, and `looks` takes
    pictures."""
    page.tab("archive", f"{address}archive.html")
    page.found("h1", "Archive")
    draws_history(page, file)
    draws_comparison(page, file)
    looks("archive")
    refuses(page, file)


def chooses(page, place, path):
    page.run("document.getElementById('told').textContent = ''")
    page.choose_file(f"section:nth-of-type({place}) input", path)


def draws_history(page, file):
    chooses(page, 1, file("X.history", HISTORY))
    page.found(HISTORY_ROWS)
    same("the history's rows", page.rows(HISTORY_ROWS), [line.split("\t") for line in HISTORY.splitlines()])
    dots = page.run(DOTS)
    same("the history's dots", len(dots), 3)
    holds("they go to the right", dots[0][0] < dots[1][0] < dots[2][0])
    low, high, between = (y for _, y in dots)
    holds("and as high as the maps", abs((low - between) - (low - high) / 4) < 0.5)


def draws_comparison(page, file):
    chooses(page, 2, file("releases.csv", EXPORT))
    page.found("#comparison")
    has("releases that share no run", page.text("#comparison"), "no run in common")
    compares(page, LONG[0], LONG[1])
    told = "3 runs in both, 3 pairs: 0 concordant, 2 discordant, 1 tied; tau -2/3."
    same("the pairs", page.text("#pairs"), told)
    orders = [page.text(f".orders ol:nth-of-type({place})").split() for place in (1, 2)]
    same("the order in the first", orders[0], [LONG[0], "0.5000", "-1", "0.2500", "Y", "0.2500"])
    same("the order in the second", orders[1], ["-1", "0.3100", "Y", "0.3000", LONG[0], "0.2900"])
    lines = page.run(LINES)
    same("the lines", [line[:2] for line in lines], [[LONG[0], "falls"], ["-1", "rises"], ["Y", "rises"]])
    same("lines that miss their rows", [line for line in lines if line[2] > 1], [])
    places = [[order[::2].index(run) for order in orders] for run in orders[0][::2]]
    crossings = sum((a[0] - b[0]) * (a[1] - b[1]) < 0 for a, b in itertools.combinations(places, 2))
    same("lines that cross", crossings, 2)
    rows = page.rows(COMPARISON_ROWS)
    same("the table", rows[0], [LONG[0], f"{LONG[1]}, grp", "0.5000", "0.2900", "-0.2100"])
    same("the table's end", rows[2], ["Y", f"{LONG[1]}, grp", "0.2500", "0.3000", "+0.0500"])
    has("a run of one alone", page.text("#comparison"), f"Only in {LONG[0]}: gone.")


def compares(page, first, second):
    for place, name in enumerate((first, second)):
        field = page.driver.find_elements("css selector", "section:nth-of-type(2) select")[place]
        field.send_keys(name)
    page.found("#pairs")


def refuses(page, file):
    """A file of another kind, and one that was edited, are refused by their first line that is at fault."""
    cases = [
        (1, "X,1", EXPORT, 1),
        (1, "comma", HISTORY.replace("0.2500", "0,2500"), 3),
        (1, "name", HISTORY.replace("-.-", "- -"), 3),
        (2, "history", HISTORY, 1),
        (2, "quotes", EXPORT.replace(",Y,", ',"Y",', 1), 3),
        (2, "more", EXPORT.replace("0.3000", "2.0000"), 6),
    ]
    for place, name, text, line in cases:
        chooses(page, place, file(name, text))
        told = f"Line {line} isn't one of such a file"
        page.until(lambda: told in page.told(), f"{name} isn't refused at line {line}")
        pictures = page.run(f"return document.querySelectorAll('section:nth-of-type({place}) svg').length")
        same(f"pictures of {name}", pictures, 0)
    chooses(page, 1, file("none.history", ""))
    is_told = lambda: "This file has no release." in page.text("section:nth-of-type(1)")
    page.until(is_told, "a history of no release isn't told")


def draws_real(page, file, history, export):
    """What the program itself printed of one release."""
    chooses(page, 1, file("real.history", history))
    rows = [line.split("\t") for line in history.splitlines()]
    page.until(lambda: page.rows(HISTORY_ROWS) == rows, "the real history isn't shown")
    chooses(page, 2, file("real.csv", export))
    page.found("#pairs")
    records = [line.split(",") for line in export.splitlines()[1:]]
    wanted = [[run, group, value, value, "0.0000"] for _, run, group, _, value in records]
    by_map = sorted(wanted, key=lambda row: row[2], reverse=True)
    same("the real export", page.rows(COMPARISON_ROWS), by_map)
    has("its pairs", page.text("#pairs"), f"{len(records)} runs in both")
