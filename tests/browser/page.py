"""The page in a headless Chromium, as a person has it: keys, what is to be seen, and pictures of it."""

import base64
import os
import time

from selenium import webdriver
from selenium.webdriver.common.action_chains import ActionChains
from selenium.webdriver.common.by import By
from selenium.webdriver.common.keys import Keys
from selenium.webdriver.chrome.service import Service

from tests.browser.served import PATIENCE

FLAGS = [
    "--headless=new",
    "--no-sandbox",
    "--disable-dev-shm-usage",
    "--disable-gpu",
    "--hide-scrollbars",
    "--force-device-scale-factor=1",
    "--disable-background-networking",
    "--no-first-run",
]

SETTLED = """
  const body = document.body;
  const grades = document.querySelector(".grades");
  return "ready" in body.dataset && !("busy" in body.dataset) && (grades === null || "ready" in grades.dataset);
"""

# what the page loaded and asked for, and where it is
ADDRESSES = """
  return [location.href, ...performance.getEntriesByType("resource").map((one) => one.name)];
"""

FOUND = """
  const [selector, text] = arguments;
  const isIt = (one) => one.checkVisibility() && (text === null || one.innerText.trim() === text);
  return [...document.querySelectorAll(selector)].find(isIt) ?? null;
"""

SEEN = """
  const seen = [...document.querySelectorAll(arguments[0])].filter((one) => one.checkVisibility());
  return seen.map((one) => one.innerText.trim()).join("\\n");
"""

ROWS = """
  const textsOf = (row) => [...row.cells].map((cell) => cell.innerText.trim());
  return [...document.querySelectorAll(arguments[0])].map(textsOf);
"""

# what a screen reader must have a name for
NAMED = "button textbox combobox checkbox spinbutton link image Iframe dialog table region".split()

# each text that is seen, with the contrast to what is behind it, where that is too little
FAINT = """
  const channels = (colour) => colour.match(/[\\d.]+/g).map(Number);
  const light = (colour) => {
    const [r, g, b] = colour.map((c) => c / 255).map((c) => (c <= 0.03928 ? c / 12.92 : ((c + 0.055) / 1.055) ** 2.4));
    return 0.2126 * r + 0.7152 * g + 0.0722 * b;
  };
  const behind = (element) => {
    for (let one = element; one !== null; one = one.parentElement) {
      const colour = channels(getComputedStyle(one).backgroundColor);
      if (colour.length < 4 || colour[3] === 1) return colour.slice(0, 3);
    }
    return [255, 255, 255];
  };
  const faint = [];
  let seen = 0;
  const walk = document.createTreeWalker(document.body, NodeFilter.SHOW_TEXT);
  while (walk.nextNode()) {
    const element = walk.currentNode.parentElement;
    if (walk.currentNode.data.trim() === "" || !element.checkVisibility()) continue;
    seen += 1;
    const [one, other] = [channels(getComputedStyle(element).color).slice(0, 3), behind(element)].map(light);
    const contrast = (Math.max(one, other) + 0.05) / (Math.min(one, other) + 0.05);
    if (contrast < 4.5) faint.push(`${contrast.toFixed(2)} ${walk.currentNode.data}`);
  }
  return [seen, faint];
"""


class Page:
    """A browser with one tab for each person."""

    def __init__(self, folder, pictures):
        self.pictures, self.downloads = pictures, os.path.join(folder, "downloads")
        os.makedirs(self.downloads)
        options = webdriver.ChromeOptions()
        options.binary_location = "/usr/bin/chromium"
        for flag in FLAGS:
            options.add_argument(flag)
        options.add_experimental_option("prefs", {"download.default_directory": self.downloads})
        options.set_capability("goog:loggingPrefs", {"browser": "ALL"})
        self.driver = webdriver.Chrome(service=Service("/usr/bin/chromedriver"), options=options)
        self.tabs, self.strokes, self.shots = {}, 0, []
        self.addresses, self.complaints = set(), []
        self.size(1280, 800)

    # ---- tabs

    def tab(self, name, address=None):
        """Goes to the tab of a person; a new one, whose storage is empty, is opened at an address."""
        self.gather()
        if name not in self.tabs:
            self.driver.switch_to.new_window("tab")
            self.tabs[name] = self.driver.current_window_handle
            self.size(1280, 800)
            self.driver.get(address)
        else:
            self.driver.switch_to.window(self.tabs[name])
        self.settled()

    def reload(self):
        self.gather()
        self.driver.refresh()

    def gather(self):
        """What the browser logged since the last time: the addresses that were asked for, and complaints."""
        self.addresses |= set(self.run(ADDRESSES))
        # (each refusal is a line of the browser too)
        lines = [line["message"] for line in self.driver.get_log("browser")]
        self.complaints += [line for line in lines if "Failed to load resource" not in line]

    # ---- doing

    def press(self, *keys):
        """Presses keys, to whatever has the focus."""
        self.strokes += len(keys)
        ActionChains(self.driver).send_keys(*keys).perform()

    def holds_down(self, digit):
        """The key events of a digit that has been held down for a while."""
        event = {"type": "keyDown", "key": digit, "code": f"Digit{digit}", "text": digit, "autoRepeat": True}
        for _ in range(5):
            self.driver.execute_cdp_cmd("Input.dispatchKeyEvent", event)

    def type(self, text):
        self.press(*text)

    def click(self, selector, text=None):
        """Clicks the first visible element of a selector; another one where the page was changed in between."""

        def is_clicked():
            element = self.run(FOUND, selector, text)
            if element is None:
                return False
            # (what happened is told in a line above, which stays in sight)
            self.run("arguments[0].scrollIntoView({block: 'center'})", element)
            element.click()
            return True

        self.until(is_clicked, f"no {selector} {text or ''} is to be seen")

    def choose_file(self, selector, path):
        self.driver.find_element(By.CSS_SELECTOR, selector).send_keys(os.path.abspath(path))

    def run(self, script, *words):
        return self.driver.execute_script(script, *words)

    # ---- looking

    def found(self, selector, text=None):
        """The first visible element of a selector, with this text where one is given."""

        return self.until(lambda: self.run(FOUND, selector, text), f"no {selector} {text or ''} is to be seen")

    def until(self, look, complaint, patience=PATIENCE):
        end = time.monotonic() + patience
        while True:
            try:
                if seen := look():
                    return seen
            except Exception:  # the page was changed meanwhile
                if time.monotonic() > end:
                    raise
            if time.monotonic() > end:
                raise AssertionError(f"{complaint}; the page says: {self.text('body')[:2000]}")
            time.sleep(0.02)

    def settled(self):
        self.until(lambda: self.run(SETTLED), "the page doesn't settle")

    def text(self, selector):
        """What is to be seen of the elements of a selector, a line each."""
        return self.run(SEEN, selector)

    def told(self):
        return self.text("#told")

    def focus(self):
        return self.driver.switch_to.active_element

    def kept(self):
        return self.run("return {...sessionStorage}")

    def rows(self, selector):
        """The texts of the cells of a table's rows."""
        return self.run(ROWS, selector)

    def file(self, name):
        path = os.path.join(self.downloads, name)
        self.until(lambda: os.path.exists(path), f"no {name} was handed out")
        with open(path) as file:
            return file.read()

    def names(self):
        """Role and name of each control, as a screen reader has them."""
        tree = self.driver.execute_cdp_cmd("Accessibility.getFullAXTree", {})["nodes"]
        told = [(node["role"]["value"], node.get("name", {}).get("value", "")) for node in tree if not node["ignored"]]
        return [(role, name) for role, name in told if role in NAMED]

    def faint(self):
        return self.run(FAINT)

    # ---- pictures

    def size(self, width, height):
        metrics = {"width": width, "height": height, "deviceScaleFactor": 1, "mobile": False}
        self.driver.execute_cdp_cmd("Emulation.setDeviceMetricsOverride", metrics)

    def scheme(self, name):
        features = [{"name": "prefers-color-scheme", "value": name}]
        self.driver.execute_cdp_cmd("Emulation.setEmulatedMedia", {"features": features})

    def shot(self, name, whole=True):
        """A picture of what is in the window, or of the whole page."""
        words = {}
        if whole:
            self.run("scrollTo(0, 0)")
            size = self.driver.execute_cdp_cmd("Page.getLayoutMetrics", {})["cssContentSize"]
            words = {"captureBeyondViewport": True, "clip": {**size, "scale": 1}}
        data = self.driver.execute_cdp_cmd("Page.captureScreenshot", words)["data"]
        path = os.path.join(self.pictures, f"{name}.png")
        with open(path, "wb") as file:
            file.write(base64.b64decode(data))
        self.shots.append(path)

    def end(self):
        self.driver.quit()


__all__ = ["Keys", "Page"]
