"""Plays README's campaign through the page, and a second one whose leases end soon; see tests/web."""

import itertools
import json
import os
import re
import shutil
import subprocess
import time

from tests.browser import archive, checks
from tests.browser.checks import has, holds, same
from tests.browser.page import Keys, Page
from tests.browser.people import Assessor, Group, Organiser, sees_table
from tests.browser.served import PATIENCE, REPOSITORY, Front, Server
from tests.script import FOLDER, PROGRAM, WORDS, tell

HERE = os.path.dirname(os.path.abspath(__file__))
TREC = os.path.join(REPOSITORY, "examples", "trec")
NAMES = "not relevant, relevant, highly relevant"
KEYS = {
    "office": "OfficeKey0000001",
    "city": "CityKey000000001",
    "harbor": "HarborKey0000001",
    "anna": "AnnaKey000000001",
    "ben": "BenKey0000000001",
}


class Campaign:
    """The program, nginx and the browser over a copy of examples/trec, and its people."""

    def __init__(self, program, folder, pictures):
        self.folder, self.trec, self.page = folder, os.path.join(folder, "trec"), None
        shutil.copytree(TREC, self.trec, ignore=shutil.ignore_patterns("campaign.journal"))
        self.server = Server(program, self.trec)
        self.front = Front(folder, self.server)
        self.page = Page(folder, pictures)
        made = {"office": Organiser, "city": Group, "harbor": Group, "anna": Assessor, "ben": Assessor}
        for name, kind in made.items():
            setattr(self, name, kind(self.page, self.front, name, KEYS[name]))

    def file(self, name, text=None):
        """A file of the campaign's folder, with a text where one is given."""
        path = os.path.join(self.trec, name)
        if text is not None:
            with open(path, "w") as file:
                file.write(text)
        return path

    def texts(self):
        """A text for each document that is graded."""
        with open(os.path.join(HERE, "text.txt")) as file:
            text = file.read()
        for who, topic in itertools.product(("anna", "ben"), ("401", "402", "403")):
            for docno in self.grades(who, topic):
                with open(os.path.join(self.front.documents, f"{docno}.txt"), "w") as file:
                    file.write(f"{docno}\n\n{text}")

    def grades(self, who, topic):
        with open(self.file(f"{who}.grades")) as file:
            lines = [line.split() for line in file]
        return {docno: grade for its, _, docno, grade in lines if its == topic}

    def looks(self, name):
        """Pictures of a view, wide and narrow, light and dark: nothing is cut, no text is faint, all has a name."""
        page = self.page
        for scheme in ("light", "dark"):
            page.scheme(scheme)
            for width, height in ((1280, 800), (320, 640)):
                page.size(width, height)
                wide = page.run("return document.documentElement.scrollWidth")
                holds(f"{name} fits {width} pixels: {wide}", wide <= width)
                seen, faint = page.faint()
                same(f"faint texts of {name}, {scheme}", faint, [])
                holds("texts were looked at", seen > 5)
                page.shot(f"{name}-{scheme}-{width}")
        page.scheme("light")
        page.size(1280, 800)
        nameless = [role for role, words in page.names() if words == ""]
        same(f"controls of {name} without a name", nameless, [])

    def end(self):
        if self.page is not None:
            self.page.end()
        self.front.end()
        self.server.kill()


# ---- the site


def curl(*words):
    ran = subprocess.run(["curl", "-s", "-i", "-m", str(PATIENCE), *words], stdout=subprocess.PIPE, check=True)
    head, _, body = ran.stdout.decode().partition("\r\n\r\n")
    return head.lower(), body


def site_stands(campaign):
    """The example's lines as they are, but for ports, folders and the certificate."""
    front = campaign.front
    secure = f"https://127.0.0.1:{front.encrypted}"
    head, body = curl("-k", f"{secure}/web/")
    for part in ("200", "default-src 'none'; script-src 'self'", "strict-transport-security", "nosniff", "no-referrer"):
        has("the page's head", head, part)
    has("the page", body, '<script type="module" src="main.js">')
    holds("no script or style stands in the page", not re.search(r"<style|style=|\son\w+=|<script>", body))
    for path, type_of in (("main.js", "javascript"), ("style.css", "text/css"), ("settings.json", "json")):
        has(f"the type of {path}", curl("-k", f"{secure}/web/{path}")[0], type_of)
    has("who comes in the clear", curl(f"http://127.0.0.1:{front.redirect}/web/")[0], "location: https://127.0.0.1")
    has("the way in", curl("-k", f"{secure}/")[0], "/web/")
    head, body = curl("-k", f"{secure}/web/documents/FT911-3.txt")
    has("a text's policy", head, "sandbox allow-same-origin; default-src 'none'")
    has("a text", body, "FT911-3")
    head, body = curl("-k", f"{secure}/web/documents/none.txt")
    has("a text that isn't there", head.splitlines()[0], "404")
    has("a text that isn't there", body, "isn't here")
    head, body = curl("-k", f"{secure}/nope", "-H", f"X-Campaign-Key: {KEYS['anna']}")
    same("the server's fault", body, '{"fault":"route"}\n')
    has("its type is kept", head, "nosniff")
    long = campaign.file("long", "x" * 16777217)
    has("too long", curl("-k", f"{secure}/topics", "-H", "Expect:", "--data-binary", f"@{long}")[0], "413")


def settings_tell_no_key(campaign):
    files = [campaign.file("campaign.toml"), campaign.file("topics.txt")]
    told = campaign.front.settings(*files, "--grades", NAMES, "--document", "documents/{docno}.txt")
    for name, key in KEYS.items():
        holds(f"the settings tell nothing of {name}", key not in told and name not in told)
    holds("nor of callers", "caller" not in told and "key" not in told)
    has("but the topics", told, "Numbers alone are not relevant.")


# ---- README's campaign


def organiser_gives_topics(campaign):
    office, page = campaign.office, campaign.page
    office.signs_in("Who are you?", "NoKey00000000001")
    office.is_told("No caller of this campaign has this key")
    page.run("document.getElementById('key').value = ''; document.getElementById('key').focus()")
    campaign.looks("key")
    office.signs_in("Organise")
    with open(campaign.file("topics.txt")) as file:
        text = file.read()
    office.gives_topics(campaign.file("cut.txt", text[: text.rindex("</top>")]))
    office.confirms("Give the topics")
    office.is_told("Line 29: this doesn't stand where it may among the tags of a topic.")
    same("the line at fault", page.text(".marked"), "(the end of the file)")
    office.gives_topics(campaign.file("topics.txt"))
    page.found("dialog")
    page.press(Keys.ENTER)
    page.until(lambda: page.text("dialog") == "", "the dialogue doesn't go")
    same("topics after a no", office.asked("/progress"), "")
    page.click("button", "Give the topics")
    office.confirms("Give the topics")
    office.is_told("The campaign has 3 topics.")
    same("the topics", [line[0] for line in office.sees_progress()], ["401", "402", "403"])
    page.click("button", "Give the topics")
    office.confirms("Give the topics")
    office.is_told("given once")


def groups_hand_in(campaign):
    city, harbor, page = campaign.city, campaign.harbor, campaign.page
    city.signs_in("Submit")
    good = "401 Q0 A 1 3.5 x\n401 Q0 B 2 2.5 x\n"
    for text, line, why, marked in [
        (good + "401 Q0 C 3 high x\n", "401 Q0 C 3 high x", "Line 3: the score is no decimal number.", "high"),
        (good + "401 Q0 C 3\n", "401 Q0 C 3", "Line 3: this line has another number of fields.", ""),
        (good + "401 Q0 A 3 1 x\n", "401 Q0 A 3 1 x", "Line 3: an earlier line says the same.", ""),
        ("499 Q0 A 1 3.5 x\n", "499 Q0 A 1 3.5 x", "Line 1: the campaign has no such topic.", "499"),
    ]:
        city.hands_in(campaign.file("bad.run", text), "city.bm25")
        city.is_told(why)
        earlier = "401 Q0 A 1 3.5 x\n" if "earlier" in why else ""
        same("the line at fault", page.text(".marked code"), earlier + line)
        same("the field at fault", page.text(".marked mark"), marked)
    campaign.looks("submit-fault")
    campaign.file("bad.run", good)
    city.sends()
    city.is_told("The file was changed since it was chosen.")
    city.hands_in(campaign.file("city.bm25.run"))
    city.is_told("city.bm25 is handed in: 27 lines on 3 topics.")
    page.until(lambda: "every mean is 0" in page.text("#run"), "it isn't told that there are no grades yet")
    city.hands_in(campaign.file("city.prf.run"))
    city.is_told("city.prf is handed in: 24 lines on 3 topics.")
    long_run_is_lost(campaign)
    harbor.signs_in("Submit")
    harbor.hands_in(campaign.file("harbor.dense.run"), "city.prf")
    harbor.is_told("Take another name")
    harbor.hands_in(campaign.file("harbor.dense.run"))
    harbor.hands_in(campaign.file("harbor.fused.run"))
    harbor.is_told("harbor.fused is handed in")
    field = page.found("#run-name")
    field.send_keys("city.prf", Keys.ENTER)
    page.until(lambda: "This belongs to another caller." in page.text("#run"), "the run of another group isn't refused")


def long_run_is_lost(campaign):
    """A run that is longer than what a tab keeps: after a reload the person chooses it again, and the number stays."""
    city, page, front = campaign.city, campaign.page, campaign.front
    path = campaign.file("long.run", f"401 Q0 A 1 3.5 {'x' * 6000000}\n")
    front.loses("never", True)
    city.chooses(path, "city.long")
    page.click("button", "Hand in")
    first = json.loads(is_lost(campaign))
    same("the text isn't kept", first["body"], None)
    page.reload()
    page.settled()
    city.is_told("The page was left while city.long was sent")
    city.chooses(path, "city.long")
    page.click("button", "Hand in")
    same("the number is the same one", json.loads(is_lost(campaign)), first)
    front.loses("never", False)
    page.click("#lost button", "Stop asking")
    is_answered(campaign)


def organiser_opens(campaign):
    office, page = campaign.office, campaign.page
    office.sees_progress()
    page.click("button", "Show the pool")
    page.found(".docs")
    docs = page.text(".docs li").splitlines()
    same("the pool", '{"docs":["%s"],"topic":"401"}\n' % '","'.join(docs), office.asked("/topics/401/pool"))
    page.click("button", "Pool as a file")
    same("the pool as a file", page.file("401.pool").splitlines(), docs)
    page.click("button", "Open the judging")
    office.confirms("Open the judging")
    office.is_told("The judging is open.")


def first_documents(campaign):
    """As README has it up to the withdrawal of a run."""
    anna, ben, harbor, page = campaign.anna, campaign.ben, campaign.harbor, campaign.page
    anna.signs_in("Assess")
    anna.takes("401")
    same("the first document", anna.document(), "FT911-3")
    anna.has_text("FT911-3")
    campaign.looks("assess")
    page.shot("assess-first-screen", whole=False)
    ben.signs_in("Assess")
    ben.takes("401")
    same("Ben's document", ben.document(), "FT944-15849")
    page.click("#give-back")
    page.settled()
    ben.is_told("FT944-15849 was given back without a grade.")
    anna.here()
    page.press("7")
    same("a key that is no grade", anna.document(), "FT911-3")
    page.holds_down("1")
    page.settled()
    same("a key that is held down", anna.document(), "FT911-3")
    # (a key of the frame counts too)
    page.click("iframe")
    page.press("1")
    page.until(lambda: anna.document() == "FT944-15849", "the next document isn't there")
    page.settled()
    anna.amends("FT911-3", "2")
    anna.is_told("FT911-3 is amended: 2, highly relevant.")
    harbor.hands_in(campaign.file("late.run", "401 Q0 FT911-3 1 0.5 late"), "harbor.late")
    harbor.is_told("harbor.late is handed in")
    page.click("button", "harbor.dense")
    page.found("#run h3", "Scores of harbor.dense")
    page.click("button", "Withdraw this run")
    harbor.confirms("Withdraw this run")
    harbor.is_told("harbor.dense is withdrawn.")
    page.click("button", "harbor.dense")
    page.until(lambda: "it has no scores any more" in page.text("#run"), "a withdrawn run has scores")


def is_lost(campaign):
    page = campaign.page
    page.until(lambda: "No answer came" in page.text("#lost"), "a lost answer isn't told")
    kept = page.kept().get("campaign.waiting", "")
    has("the command is kept", kept, '"number":"')
    return kept


def is_answered(campaign):
    page = campaign.page
    page.until(lambda: page.text("#lost") == "", "a lost answer isn't asked for again")
    page.settled()
    same("nothing waits", page.kept().get("campaign.waiting"), None)


def answers_are_lost(campaign):
    """The server is killed in the midst; a grade and a lease are done and their answers lost; a grade isn't sent on."""
    anna, page, front, server = campaign.anna, campaign.page, campaign.front, campaign.server
    grades = campaign.grades("anna", "401")
    anna.here()
    server.kill()
    page.press(grades["FT944-15849"])
    is_lost(campaign)
    campaign.looks("lost")
    # (the page asks by itself too; at last each quarter of a minute, so that the button is what asks here)
    waits_long = lambda: "in 15 seconds" in page.text("#lost")
    page.until(waits_long, "the page doesn't wait longer and longer", patience=2 * PATIENCE)
    waits = time.monotonic()
    server.start()
    page.click("#lost button", "Ask again now")
    is_answered(campaign)
    holds("the button asks at once", time.monotonic() - waits < 15)
    same("the document after the server's end", anna.document(), "LA010189-0001")
    # done, and its answer lost; also over a reload of the page
    front.loses("lost", True)
    page.press(grades["LA010189-0001"])
    kept = is_lost(campaign)
    server_says = lambda: campaign.office.asked("/progress").splitlines()[0]
    page.until(lambda: server_says() == "401 4 2 1 0", "the grade isn't done")
    page.reload()
    same("the command that is kept over a reload", is_lost(campaign), kept)
    front.loses("lost", False)
    is_answered(campaign)
    same("the document after a lost answer", anna.document(), "FBIS3-60449")
    # never sent on, until the assessor stops asking, and grades again
    front.loses("never", True)
    page.press(grades["FBIS3-60449"], grades["FBIS3-60449"], "1")
    is_lost(campaign)
    page.click("#lost button", "Stop asking")
    is_answered(campaign)
    anna.is_told("it isn't known whether the command was done")
    same("a grade that isn't sent on", server_says(), "401 4 2 1 1")
    same("the document is still there", anna.document(), "FBIS3-60449")
    front.loses("never", False)
    page.press(grades["FBIS3-60449"])
    page.settled()
    anna.is_told("Nothing is left for you")
    same("topic 401", server_says(), "401 4 2 2 0")


def lease_is_lost(campaign):
    anna, page, front = campaign.anna, campaign.page, campaign.front
    front.loses("lost", True)
    page.run("document.getElementById('main').focus()")
    page.press(Keys.TAB, *"402", Keys.TAB, Keys.ENTER)
    is_lost(campaign)
    page.until(lambda: " 1\n" in campaign.office.asked("/progress"), "no lease was granted")
    page.click("#lost button", "Ask again now")
    front.loses("lost", False)
    is_answered(campaign)
    same("leases of a lease whose answer was lost", campaign.office.asked("/progress").splitlines()[1], "402 4 0 0 1")
    # a key that bounces: the next document isn't graded unread
    first = anna.document()
    grade = campaign.grades("anna", "402")[first]
    page.press(grade, grade)
    page.settled()
    graded = "402 4 0 1 1" if grade == "0" else "402 4 1 0 1"
    same("a key that bounces", campaign.office.asked("/progress").splitlines()[1], graded)
    holds("the next document is there", anna.document() not in ("", first))


def documents_by_keys(campaign):
    """The rest by keys alone, one a document; each takes one lease and one grade."""
    front, documents = campaign.front, 0
    for person, topic, takes in [
        (campaign.anna, "402", False),
        (campaign.anna, "403", True),
        (campaign.ben, "403", True),
    ]:
        person.here()
        place = len(front.asked_since())
        if takes:
            person.takes(topic)
        graded = person.grades_by(campaign.grades(person.name, topic))
        asked = [(method, path.rsplit("/", 1)[1], status) for method, path, status in front.asked_since(place)]
        posts = [(what, status) for method, what, status in asked if method == "POST"]
        same(f"documents of {topic}", graded, 3 if topic == "402" else 5)
        same("grades that were asked for", posts.count(("grade", "201")), graded)
        same("leases that were asked for", posts.count(("lease", "201")), graded if takes else graded - 1)
        same("and the one that isn't there", posts.count(("lease", "409")), 1)
        same("and nothing else", len(posts), 2 * graded + (1 if takes else 0))
        documents += graded
    return documents


def organiser_rules(campaign):
    office, page = campaign.office, campaign.page
    same("progress", office.sees_progress(), [line.split() for line in ("401 4 2 2 0", "402 4 2 2 0", "403 5 2 2 0")])
    same("a disagreement", office.sees_disagreements(), ["403 LA072290-0044"])
    campaign.looks("organise")
    page.click("#disagreements table select")
    page.press("1", Keys.ENTER)
    page.click("#disagreements table button", "Rule")
    page.settled()
    office.is_told("Ruled: LA072290-0044 is 1, relevant.")
    same("the end of a disagreement", office.sees_disagreements(), [])
    same("progress of README", office.sees_progress()[2], "403 5 3 2 0".split())
    page.click("button", "Show the table")
    shown = sees_table(office, "/table")
    maps = {run: values["map"] for run, values in shown.items()}
    means = {"city.bm25": "0.8333", "city.prf": "0.6222", "harbor.fused": "0.8630", "harbor.late": "0.1667"}
    same("the table of README", maps, means)
    page.click("button", "Qrels so far")
    same("the qrels so far", page.file("campaign.qrels"), office.asked("/qrels"))
    page.click("button", "Table so far")
    same("the table so far", page.file("table.scores"), office.asked("/table"))
    campaign.looks("organise-table")
    city = campaign.city
    same("the mean of README", city.sees_scores("city.prf", "map"), "0.6222")
    city.sees_scores("city.prf", "P_10")
    city.sees_scores("city.bm25", "map")
    campaign.looks("scores")


def campaign_is_published(campaign):
    office, anna, city, page = campaign.office, campaign.anna, campaign.city, campaign.page
    anna.here()
    page.click("nav a", "Release")
    page.until(lambda: "Nothing is published yet." in page.text("main"), "an unpublished release is shown")
    office.here()
    page.click("button", "Publish")
    page.found("dialog")
    holds("all is graded", "no grade yet" not in page.text("dialog"))
    page.shot("dialogue", whole=False)
    office.confirms("Publish")
    office.is_told("The campaign is published.")
    anna.here()
    page.click("button", "Look again")
    sees_table(anna, "/releases/1/scores")
    has("the qrels are counted", page.text("main"), "The qrels have 13 documents.")
    page.click("button", "Qrels")
    same("the released qrels", page.file("release-1.qrels"), anna.asked("/releases/1/qrels"))
    page.click("button", "Scores")
    same("the released scores", page.file("release-1.scores"), anna.asked("/releases/1/scores"))
    campaign.looks("release")
    page.click("nav a", "Assess")
    page.settled()
    anna.takes("401")
    anna.is_told("It is too late: the campaign is published.")
    city.here()
    page.click("nav a", "Submit")
    city.hands_in(campaign.file("city.prf.run"), "city.late")
    city.is_told("It is too late: the campaign is published.")
    page.click("nav a", "Release")
    sees_table(city, "/releases/1/scores")


def nothing_more_was_done(campaign):
    """The journal has README's commands and no more, though answers were lost and keys pressed twice."""
    campaign.server.kill()
    told = campaign.server.told("check").splitlines()
    same("the journal", told[:2], ["entries 50", "phase published"])


def archive_is_drawn(campaign):
    """The page of the archive: over files that are made here, and over what the program prints of README's release."""
    page, city, server = campaign.page, campaign.city, campaign.server
    archive.draws(page, f"{campaign.front.address}/web/", campaign.file, campaign.looks)
    same("the archived release", server.told("archive", "trec-2026"), "archived trec-2026\n")
    archive.draws_real(page, campaign.file, server.told("history", "city.prf"), server.told("export"))
    city.here()
    page.click("a", "Releases of other years")
    page.found("h1", "Archive")
    page.settled()
    page.click("nav a", "The campaign")
    page.found("h1")
    same("what the tab keeps", page.kept()["campaign.role"], '"group"')


# ---- a campaign whose leases end soon


def second_campaign(campaign):
    """One document at once, leases of twelve seconds, and a level of topic 402; and no settings.json."""
    server = campaign.server
    os.remove(campaign.file("campaign.journal"))
    with open(campaign.file("campaign.toml")) as file:
        settings = file.read()
    settings = settings.replace("term = 3600", "term = 12").replace("hold = 2", "hold = 1")
    campaign.file("campaign.toml", settings.replace("levels = []", 'levels = [{ topic = "402", level = 2 }]'))
    os.remove(os.path.join(campaign.front.web, "settings.json"))
    server.start()
    server.asked("/topics", KEYS["office"], "@" + campaign.file("topics.txt"))
    for run in ("city.bm25", "city.prf"):
        server.asked(f"/runs/{run}", KEYS["city"], "@" + campaign.file(f"{run}.run"))
    same("the second campaign is open", server.asked("/open", KEYS["office"], "")[0], 201)


def one_document_at_once(campaign):
    """Ben in two tabs; the clock of the first one is late, so that its page believes its lease live for ever."""
    ben = Assessor(campaign.page, campaign.front, "ben again", KEYS["ben"])
    other = Assessor(campaign.page, campaign.front, "ben in another tab", KEYS["ben"])
    ben.signs_in("Assess")
    other.signs_in("Assess")
    ben.takes("402")
    campaign.page.run(LATE)
    other.takes("402")
    other.is_told("You hold 1 document already")
    return ben


LATE = """
  const lease = JSON.parse(sessionStorage["campaign.lease"]);
  sessionStorage["campaign.lease"] = JSON.stringify({ ...lease, ahead: -3600000 });
"""


def leases_end(campaign):
    page = campaign.page
    anna = Assessor(page, campaign.front, "anna again", KEYS["anna"])
    anna.signs_in("Assess")
    same("the topic is typed", page.found("#topic").tag_name, "input")
    anna.takes("499")
    anna.is_told("The campaign has no such topic.")
    page.found("#topic").clear()
    anna.takes("401")
    first = anna.document()
    has("no text", page.text("main"), "doesn't know where the texts are")
    anna.is_told("Your time for this document ends in")
    campaign.page.shot("lease-ends", whole=False)
    anna.is_told(f"Your time for {first} has run out")
    page.settled()
    same("the focus after the end", page.focus().text, "Take the next document")
    page.press(Keys.ENTER)
    page.settled()
    same("the document again", anna.document(), first)
    page.press("9")
    anna.is_told("This campaign has no such grade")
    same("the document is still there", anna.document(), first)


def grade_is_too_late(ben):
    """Ben's lease has ended by the server's clock, and his page doesn't know."""
    page = ben.here()
    holds("his page has a document", ben.document() != "")
    page.press("1")
    ben.is_told("Your time for this document has run out, so the grade wasn't taken.")
    page.settled()
    same("the desk", ben.document(), "")
    same("no grade", ben.front.server.asked("/progress", KEYS["office"])[1].splitlines()[1], "402 4 0 0 0")


def ruling_without_grade(campaign):
    page = campaign.page
    office = Organiser(page, campaign.front, "office again", KEYS["office"])
    office.signs_in("Organise")
    office.sees_progress()
    page.click("summary")
    fields = page.driver.find_elements("css selector", "#other-ruling input")
    for field, text in zip(fields, ("401", "FT911-3", "1"), strict=True):
        field.send_keys(text)
    page.press(Keys.ENTER)
    office.is_told("no grade that could be changed")


def key_is_changed(campaign):
    """A key that is changed between two starts: the page asks for the new one."""
    page, server = campaign.page, campaign.server
    server.kill()
    with open(campaign.file("campaign.toml")) as file:
        settings = file.read()
    campaign.file("campaign.toml", settings.replace(KEYS["office"], "OfficeKey0000002"))
    server.start()
    page.click("button", "Refresh")
    page.found("h1", "Who are you?")
    has("the key isn't known", page.told(), "doesn't know your key any more")
    page.type("OfficeKey0000002")
    page.press(Keys.ENTER)
    page.found("h1", "Organise")
    page.click("button", "Forget the key")
    page.found("h1", "Who are you?")
    same("what the tab keeps", [name for name in page.kept() if name.startswith("campaign.")], [])


def levels_of_topics(campaign):
    """The buttons show which grades are relevant on a topic, as settings.json tells it."""
    page = campaign.page
    campaign.front.settings(campaign.file("campaign.toml"), campaign.file("topics.txt"))
    ben = Assessor(page, campaign.front, "ben at last", KEYS["ben"])
    ben.signs_in("Assess")
    for topic, relevant in (("401", [False, True, True]), ("402", [False, False, True])):
        ben.takes(topic)
        same(f"the relevant grades of {topic}", page.run(RELEVANT), relevant)
        page.click("#give-back")
        page.settled()


RELEVANT = """
  return [...document.querySelectorAll("button.grade")].map((one) => one.classList.contains("relevant"));
"""


def browser_is_content(campaign):
    """Nothing was loaded from elsewhere, no key stood in an address, and the policy held."""
    page, front = campaign.page, campaign.front
    page.gather()
    same("complaints of the browser", page.complaints, [])
    own = (f"{front.address}/", "blob:", "data:,")
    same("addresses elsewhere", [one for one in page.addresses if not one.startswith(own)], [])
    holds("addresses were looked at", len(page.addresses) > 40)
    same("keys in addresses", [one for one in page.addresses if any(key in one for key in KEYS.values())], [])


def play(pictures):
    campaign = Campaign(PROGRAM, FOLDER, pictures)
    try:
        campaign.texts()
        settings_tell_no_key(campaign)
        site_stands(campaign)
        organiser_gives_topics(campaign)
        groups_hand_in(campaign)
        organiser_opens(campaign)
        first_documents(campaign)
        answers_are_lost(campaign)
        lease_is_lost(campaign)
        by_keys = documents_by_keys(campaign)
        organiser_rules(campaign)
        campaign_is_published(campaign)
        nothing_more_was_done(campaign)
        archive_is_drawn(campaign)
        second_campaign(campaign)
        ben = one_document_at_once(campaign)
        leases_end(campaign)
        grade_is_too_late(ben)
        ruling_without_grade(campaign)
        key_is_changed(campaign)
        levels_of_topics(campaign)
        browser_is_content(campaign)
    finally:
        campaign.end()
    shots = len(campaign.page.shots)
    same("documents that were graded by one key each", by_keys, 13)
    same("screenshots", shots, 39)
    holds(f"enough was tried: {checks.tried} checks", checks.tried >= 345)
    tell(f"{by_keys} documents were graded by as many keys, checks: {checks.tried}")
    tell(f"{shots} screenshots are in {pictures}")


play(*WORDS)
