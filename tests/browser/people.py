"""The callers of examples/trec at the page: what each does there, in the words of a person."""

from tests.browser.checks import has, same
from tests.browser.page import Keys


# how much higher the frame is than its text
ROOM = """
  const frame = document.querySelector("iframe");
  return frame.clientHeight - frame.contentDocument.documentElement.scrollHeight;
"""

CHOOSE = """
  const measure = document.querySelector("#run select");
  measure.value = arguments[0];
  measure.dispatchEvent(new Event("change"));
"""

# where the dots of a run stand, in hundredths of the picture
DOTS = """
  const places = [...document.querySelectorAll(".dots circle")].map((dot) => parseFloat(dot.getAttribute("cx")));
  return places.map((place) => Math.round(place * 100) / 100);
"""


class Person:
    """A caller in a tab of its own."""

    def __init__(self, page, front, name, key):
        self.page, self.front, self.name, self.key = page, front, name, key

    def here(self, path="/web/"):
        """Goes to this person's tab."""
        self.page.tab(self.name, self.front.address + path)
        return self.page

    def signs_in(self, view, key=None):
        page = self.here()
        page.type(key or self.key)
        page.press(Keys.ENTER)
        page.found("h1", view)
        page.settled()

    def asked(self, path):
        """The server's own answer to this person, past the page."""
        return self.front.server.asked(path, self.key)[1]

    def confirms(self, text):
        """Says yes in the dialogue, whose first focus is on the way out."""
        self.page.found("dialog")
        same("the focus of a dialogue", self.page.focus().text, "Cancel")
        self.page.click("dialog button", text)
        self.page.settled()

    def is_told(self, part):
        page = self.page
        # (what was found is held: the page may tell the next thing by then)
        looks = lambda: [told for told in [page.told()] if part in told]
        (told,) = page.until(looks, f"{self.name} isn't told {part!r}, but {page.told()!r}")
        has(f"{self.name} is told", told, part)


class Assessor(Person):
    def takes(self, topic):
        """Chooses a topic and takes its next document, by keys alone, from wherever the focus is before the topic."""
        page = self.here()
        page.run("document.getElementById('main').focus()")
        page.press(Keys.TAB)
        same("the field that Tab leads to", page.focus().get_attribute("id"), "topic")
        page.press(*topic, Keys.TAB, Keys.ENTER)
        page.settled()

    def document(self):
        """The docno that is on the desk, or an empty text."""
        return self.page.text("#docno").removeprefix("Document ")

    def grades_by(self, grades):
        """Grades by one key a document until nothing is left; how many documents, and keys."""
        page = self.here()
        strokes, documents = page.strokes, 0
        while (docno := self.document()) != "":
            page.press(grades[docno])
            page.settled()
            documents += 1
        self.is_told("Nothing is left for you")
        same("the key strokes of the documents", page.strokes - strokes, documents)
        return documents

    def has_text(self, docno):
        """The frame shows the text of this document, as high as the text is."""
        page = self.page
        text = "return document.querySelector('iframe').contentDocument?.body.innerText ?? ''"
        page.until(lambda: docno in page.run(text), f"the text of {docno} isn't shown")
        has("the text", page.run(text), docno)
        page.until(lambda: 0 <= page.run(ROOM) <= 20, "the frame isn't as high as its text")

    def amends(self, docno, grade):
        """Amends a grade in the list of what was graded in this tab."""
        page = self.here()
        page.click(f'[data-place$=" {docno}"] button')
        same("the focus of an amendment", page.focus().get_attribute("aria-label"), f"New grade of {docno}")
        page.press(grade, Keys.TAB, Keys.ENTER)
        page.settled()


class Organiser(Person):
    def gives_topics(self, path):
        page = self.here()
        page.choose_file("input[type=file]", path)
        page.click("button", "Give the topics")

    def refreshes(self):
        page = self.here()
        before = page.text("#refreshed")
        page.run("document.getElementById('refreshed').textContent = ''")
        page.click("button", "Refresh")
        page.until(lambda: page.text("#refreshed"), f"nothing is asked again since {before}")

    def sees_progress(self):
        """The rows of progress are the server's page."""
        self.refreshes()
        rows = [[cells[0].split()[0], *cells[2:]] for cells in self.page.rows(".progress tbody tr")]
        lines = [line.split() for line in self.asked("/progress").splitlines()]
        same("progress", rows, lines)
        return lines

    def sees_disagreements(self):
        self.refreshes()
        rows = [" ".join(cells[:2]) for cells in self.page.rows("#disagreements table tbody tr")]
        same("disagreements", rows, self.asked("/disagreements").splitlines())
        return rows


class Group(Person):
    def chooses(self, path, run=None):
        page = self.page
        page.choose_file("input[type=file]", path)
        field = page.found("form input[type=text]")
        field.clear()
        field.send_keys(run or path.rsplit("/", 1)[1].removesuffix(".run"))

    def hands_in(self, path, run=None):
        self.here()
        self.chooses(path, run)
        self.sends()

    def sends(self):
        """Hands in what is chosen."""
        page = self.page
        page.run("document.getElementById('told').textContent = ''")
        page.click("button", "Hand in")
        page.until(lambda: page.told() != "" and not page.told().startswith("Sending"), "a run isn't answered")
        page.settled()

    def sees_scores(self, run, measure):
        """The dots of a run are the server's values; its mean."""
        page = self.here()
        page.run("document.getElementById('run').replaceChildren()")
        field = page.found("#run-name")
        field.clear()
        field.send_keys(run, Keys.ENTER)
        page.found("#run h3", f"Scores of {run}")
        page.run(CHOOSE, measure)
        lines = [line.split("\t") for line in self.asked(f"/runs/{run}/scores").splitlines()]
        values = {topic: value for _, topic, name, value in lines if name == measure}
        rows = page.rows(".dots tr")
        mean = values.pop("all")
        shown = {cells[0]: cells[2] for cells in rows[1:-1]}
        same(f"{measure} of {run}", list(shown.items()), list(values.items()))
        same(f"the mean {measure} of {run}", rows[-1][-1], mean)
        same("the dots", page.run(DOTS), [round(2 + 96 * float(value), 2) for value in values.values()])
        return mean


def sees_table(person, path):
    """The table that is shown is the server's page, sorted by a measure that is pressed."""
    page = person.page
    page.found("table.scores")
    for measure in ("map", "bpref", "num_ret"):
        if measure != "map":
            page.click(".sort", measure)
        (head,) = page.rows(".scores thead tr")
        rows = page.rows(".scores tbody tr")
        shown = {row[0]: dict(zip(head[2:], row[2:])) for row in rows}
        lines = [line.split("\t") for line in person.asked(path).splitlines()]
        expected = {}
        for run, _, name, value in lines:
            expected.setdefault(run, {})[name] = value
        same("the table", shown, expected)
        order = [float(shown[row[0]][measure]) for row in rows]
        same(f"the order by {measure}", order, sorted(order, reverse=True))
        same("the sorted column", page.text("th[aria-sort=descending] button"), measure)
    page.click(".sort", "Run")
    names = [row[0] for row in page.rows(".scores tbody tr")]
    same("the order by name", names, sorted(names))
    return shown
