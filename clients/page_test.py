#!/usr/bin/env python3
"""Tries the page of the statistics in a real browser, and ends with one line 'N passed, M failed'.

usage: clients/page_test.py [PICTURE]

It starts headless Chromium, and asks it by its debugging pipe what the page holds: the text of each queue, what a screen reader is told, and whether
all stands in its card; and nothing else of how it looks. The page comes from clients/stand_in.py, whose numbers are known and some of whose names are
no queue's. Behind it that of the server is tried, with queues that it fills: the program that `make run` starts, at ports of its own. PICTURE is a file
that a picture of the page is written to, two minutes after it was opened. The status is 1 where something is not as it should be, and 3 where there is
no Chromium.
"""
import base64
import fcntl
import json
import os
import re
import shutil
import subprocess
import sys
import tempfile
import threading
import time
import urllib.request

ROOT = os.path.normpath(os.path.join(os.path.dirname(os.path.abspath(__file__)), ".."))
sys.path[:0] = [f"{ROOT}/clients", f"{ROOT}/clients/python"]
sys.dont_write_bytecode = True
import stand_in  # noqa: E402
from jutkariq import Server  # noqa: E402

BROWSERS = ("chromium", "chromium-browser", "google-chrome", "google-chrome-stable")
PATIENCE = 60.0
# A time in milliseconds at which a minute begins in which much is sent to the first queues of the stand-in, as in the one that follows.
BEGIN = 1_700_006_520_000
MEASURES = ("sent", "received", "deleted", "visible")
# The codes of keys which the browser itself does something with.
CODES = {"Tab": 9, "Enter": 13, "Escape": 27, " ": 32, "ArrowUp": 38, "ArrowDown": 40}

# What the page holds: of each card and of each row that stands there its name, and the texts of what is drawn.
HELD = """(() => {
  const texts = (element, what) => [...element.querySelectorAll(what)].map((it) => it.textContent);
  const text = (element, what) => element && element.querySelector(what) ? element.querySelector(what).textContent : null;
  const active = document.activeElement;
  return {
    title: document.title, state: document.getElementById("now").textContent, gone: document.body.classList.contains("gone"),
    sum: document.getElementById("sum").textContent, none: document.getElementById("none").hidden, shown: document.getElementById("shown").textContent,
    scripts: document.scripts.length, made: document.querySelectorAll("main b, main i, main script").length,
    ground: getComputedStyle(document.body).backgroundColor,
    focused: active.matches("article") ? text(active, "h2") : active.matches("#rows button") ? active.textContent : active.id || active.tagName,
    queues: [...document.querySelectorAll("article")].map((it) => ({
      name: it.querySelector("h2").textContent, numbers: texts(it, "dd"), words: texts(it, "dt"), lines: texts(it, "p"),
      alarms: [...it.querySelectorAll("li")].map((alarm) => [alarm.className, alarm.textContent]),
      colours: [...it.querySelectorAll("li")].map((alarm) => getComputedStyle(alarm).color), said: texts(it, "figcaption span:last-child"),
      plots: [...it.querySelectorAll("svg")].map((plot) => {
        const path = (what) => plot.querySelector(what).getAttribute("d");
        return [plot.getAttribute("aria-label"), path("path:not(.live)").length, path("path.live")];
      }),
    })),
    rows: [...document.querySelectorAll("#rows .queue")].map((it) => ({
      name: text(it, "button"), numbers: texts(it, "[role=cell]"), open: it.querySelector("button").getAttribute("aria-expanded"),
      card: text(document.getElementById(it.querySelector("button").getAttribute("aria-controls")), "h2"),
    })),
  };
})()"""

# What is not within the card that it is of: elements, and texts that nothing cuts off; how many plots stand side by side; how wide the document is.
WIDTHS = """(() => {
  const beyond = [], beside = [];
  for (const card of document.querySelectorAll("article")) {
    const edge = card.getBoundingClientRect();
    const look = (box, what) => {
      if (box.right > edge.right + 0.5 || box.left < edge.left - 0.5) beyond.push([what, box.left - edge.left, box.right - edge.right]);
    };
    const cut = (it) => it !== card && (getComputedStyle(it).overflowX !== "visible" || cut(it.parentElement));
    for (const it of card.querySelectorAll("*")) look(it.getBoundingClientRect(), it.tagName);
    const texts = document.createTreeWalker(card, NodeFilter.SHOW_TEXT), range = document.createRange();
    while (texts.nextNode()) {
      range.selectNodeContents(texts.currentNode);
      if (!cut(texts.currentNode.parentElement)) for (const box of range.getClientRects()) look(box, texts.currentNode.data);
    }
    beside.push(new Set([...card.querySelectorAll("svg")].map((it) => it.getBoundingClientRect().left)).size);
  }
  return { beyond, beside, cards: beside.length, document: document.documentElement.scrollWidth, window: innerWidth };
})()"""


class Browser:
    """A headless Chromium that is asked through its debugging pipe."""

    def __init__(self, program, room):
        self.number, self.kept = 0, b""
        read, out = os.pipe()
        into, self.write = os.pipe()
        self.read = read
        # above the two numbers that the browser reads and writes
        ends = [fcntl.fcntl(it, fcntl.F_DUPFD_CLOEXEC, 10) for it in (into, out)]
        words = [program, "--headless", "--remote-debugging-pipe", f"--user-data-dir={room}", "--no-first-run", "--disable-gpu", "--hide-scrollbars",
                 "--force-color-profile=srgb", *(["--no-sandbox"] if os.geteuid() == 0 else []), "about:blank"]

        def hand_over():
            os.dup2(ends[0], 3)
            os.dup2(ends[1], 4)

        quiet = {"stdin": subprocess.DEVNULL, "stdout": subprocess.DEVNULL, "stderr": subprocess.DEVNULL}
        self.it = subprocess.Popen(words, close_fds=False, preexec_fn=hand_over, env={**os.environ, "TZ": "UTC"}, **quiet)
        for end in (into, out, *ends):
            os.close(end)
        # a browser that says nothing for long is ended, and that ends what is read of it
        self.watch = threading.Timer(10 * PATIENCE, self.it.kill)
        self.watch.start()
        self.session = None
        target = self.call("Target.createTarget", url="about:blank")["targetId"]
        self.session = self.call("Target.attachToTarget", targetId=target, flatten=True)["sessionId"]

    def call(self, method, **parameters):
        """Asks one thing, and returns the answer to it."""
        self.number += 1
        asked = {"id": self.number, "method": method, "params": parameters, **({"sessionId": self.session} if self.session else {})}
        left = json.dumps(asked).encode() + b"\0"
        while left:
            left = left[os.write(self.write, left):]
        while True:
            while b"\0" not in self.kept:
                more = os.read(self.read, 1 << 20)
                if not more:
                    sys.exit("page-test: the browser ended, or said nothing for too long")
                self.kept += more
            said, _, self.kept = self.kept.partition(b"\0")
            said = json.loads(said)
            if said.get("id") == self.number:
                if "error" in said:
                    sys.exit(f"page-test: {method}: {said['error']['message']}")
                return said["result"]

    def value(self, script):
        """Returns what a script gives in the page."""
        said = self.call("Runtime.evaluate", expression=script, returnByValue=True)
        return said["result"].get("value")

    def open(self, url, width=1500, height=1200, dark=False):
        """Opens a page in a window of this size."""
        self.call("Emulation.setDeviceMetricsOverride", width=width, height=height, deviceScaleFactor=1, mobile=False)
        self.call("Emulation.setEmulatedMedia", features=[{"name": "prefers-color-scheme", "value": "dark" if dark else "light"}])
        self.call("Page.navigate", url="about:blank")
        self.call("Page.navigate", url=url)

    def held(self, until, patience=PATIENCE):
        """Returns what the page holds as soon as it is so, or at the end of the patience."""
        end = time.monotonic() + patience
        while True:
            held = self.value(f"document.getElementById('queues') && {HELD}")
            if held and until(held) or time.monotonic() > end:
                return held
            time.sleep(0.1)

    def focused(self):
        """Returns what has the focus: the name of a queue, or what part of the page it is."""
        return self.held(lambda held: True)["focused"]

    def becomes(self, script):
        """Returns whether a script gives true before long."""
        end = time.monotonic() + PATIENCE / 10
        while not (is_so := self.value(script)) and time.monotonic() < end:
            time.sleep(0.05)
        return is_so

    def key(self, key, text=""):
        """Presses a key and lets it go."""
        code = {"windowsVirtualKeyCode": CODES[key], "nativeVirtualKeyCode": CODES[key]} if key in CODES else {}
        text = {"Enter": "\r", " ": " "}.get(key, text)
        self.call("Input.dispatchKeyEvent", type="keyDown", key=key, **code, **({"text": text} if text else {}))
        self.call("Input.dispatchKeyEvent", type="keyUp", key=key, **code)

    def point(self, plot, part):
        """Puts the pointer on a plot, at a part of its width."""
        x, y, width = self.value(f"(({{ x, y, width }}) => [x, y, width])(document.querySelectorAll('svg')[{plot}].getBoundingClientRect())")
        self.call("Input.dispatchMouseEvent", type="mouseMoved", x=x + width * part, y=y + 5)

    def told(self, *roles):
        """Returns what a screen reader is told of the parts that have these roles: of each the role, the name, and whether it is open where it can be."""
        nodes = self.call("Accessibility.getFullAXTree")["nodes"]
        expanded = lambda node: next((it["value"]["value"] for it in node.get("properties", ()) if it["name"] == "expanded"), None)
        found = [(it["role"]["value"], it.get("name", {}).get("value", ""), expanded(it)) for it in nodes if not it["ignored"]]
        return [it for it in found if it[0] in roles]

    def picture(self, path):
        """Writes a picture of the window."""
        with open(path, "wb") as it:
            it.write(base64.b64decode(self.call("Page.captureScreenshot")["data"]))

    def end(self):
        """Ends it."""
        self.watch.cancel()
        self.it.terminate()
        self.it.wait()
        os.close(self.read)
        os.close(self.write)


class Checks:
    """What was checked."""

    def __init__(self):
        self.passed = self.failed = 0

    def check(self, what, is_so, held=None):
        """Counts one check, and prints it where it failed."""
        self.passed, self.failed = self.passed + bool(is_so), self.failed + (not is_so)
        if not is_so:
            print(f"page-test: {what}: not so{f'; the page holds {json.dumps(held, ensure_ascii=False)[:1500]}' if held is not None else ''}", flush=True)


def are_drawn(count):
    """Returns whether the cards of so many queues stand there, all of them with their rows."""
    return lambda held: len(held["queues"]) == count and all(any(over for _, over, _ in it["plots"]) for it in held["queues"])


def looks_of(queue):
    """Returns how many seconds the plots by seconds of a queue are of: between two looks about one passes."""
    found = [re.search(r" in the last (\d+) seconds?: ", label) for label, _, _ in queue["plots"][1::2]]
    return min((int(it[1]) if it else 0 for it in found), default=0)


def span(seconds):
    """Returns seconds as the page writes them."""
    for size, unit, less, small in ((86400, "d", 3600, "h"), (3600, "h", 60, "m"), (60, "m", 1, "s")):
        if seconds >= size:
            rest = seconds % size // less
            return f"{seconds // size} {unit}" + (f" {rest} {small}" if rest else "")
    return f"{seconds} s"


def sheet_shown(queue, line):
    """Returns what stood in a queue at the time that its last line names."""
    hours, minutes, seconds = map(int, line.rpartition(" at ")[2].split(":"))
    day, now = 86_400_000, stand_in.Answers.now()
    at = now // day * day + 1000 * (3600 * hours + 60 * minutes + seconds)
    return queue.sheet(at if at <= now else at - day)


def by_seconds(queue, key, clock, count):
    """Returns what the plot by seconds has of the last seconds up to a time: how much of a flow there was in each, or what was visible at its end."""
    times = range(clock - 1000 * (count - 1), clock + 1, 1000)
    if key == "visible":
        return [queue.sheet(at)[key] for at in times]
    until = lambda at: sum(row[key] for row in queue.rows(at)) + queue.sheet(at)["current"][key]
    return [until(at) - until(at - 1000) for at in times]


def columns(path):
    """Returns the columns of a plot: of each where it begins and ends, and its height, of which the highest has 27, and the lowest that is drawn 1.5."""
    found, end = [], 0.0
    for begin, top, to in re.findall(r"M([\d.]+) 28|V([\d.]+)H([\d.]+)", path):
        if not begin:
            found.append((end, float(to), round(28 - float(top), 1)))
        end = float(begin or to)
    return found


def are_columns(path, wanted, most):
    """Returns whether the columns of a plot are these, of which each has its two ends and a number."""
    wanted = [(begin, end, max(1.5, 27 * number / most)) for begin, end, number in wanted if number]
    found = columns(path)
    return len(found) == len(wanted) and all(max(abs(one - other) for one, other in zip(*pair)) < 0.051 for pair in zip(found, wanted))


def check_plots(checks, queue, shown, sheet):
    """Checks the plots of a queue by minutes: each says how much there was at most and in the running minute, whose column is the last."""
    rows = queue.rows(sheet["clock"])
    for (label, over, live), key in zip(shown["plots"][::2], MEASURES, strict=True):
        now, before = sheet["current"].get(key, sheet.get(key)), [row[key] for row in rows]
        last = f" in the last {len(rows)} minute{'s' * (len(rows) != 1)}: up to {max([now, *before]):,}, this minute " if rows else " this minute: "
        checks.check(f"{queue.name}: the plot of {key}", label == f"{key}{last}{now:,}", [label, last, now])
        checks.check(f"{queue.name}: minutes of {key} that are over are drawn", (over > 0) == any(before), [label, over])
        checks.check(f"{queue.name}: the running minute of {key} is drawn", are_columns(live, [(182, 186, now)], max([now, *before])), [label, live])


def check_seconds(checks, queue, shown, sheet):
    """Checks the plots by seconds of a queue whose clock goes on by a second from look to look."""
    count = looks_of(shown)
    for (label, over, live), key in zip(shown["plots"][1::2], MEASURES, strict=True):
        found = by_seconds(queue, key, sheet["clock"], count)
        wanted = f"{key}{'' if key == 'visible' else ' a second'} in the last {count} seconds: up to {max(found):,}, last {found[-1]:,}"
        checks.check(f"{queue.name}: {key} by seconds", label == wanted, [label, wanted])
        wanted = [(120 - count + place, 121 - count + place, number) for place, number in enumerate(found)]
        checks.check(f"{queue.name}: seconds of {key} are drawn", over == 0 and are_columns(live, wanted, max(found)), [label, live, found])


def check_queues(checks, held):
    """Checks the text of each queue of the stand-in."""
    by_name = {it.name: it for it in stand_in.Answers.queues}
    checks.check("the queues stand in the order of their names", [it["name"] for it in held["queues"]] == sorted(by_name), held["queues"])
    checks.check("no name is taken for markup", (held["title"], held["scripts"], held["made"]) == ("Jutkariq", 1, 0), held)
    for shown in (it for it in held["queues"] if it["name"] in by_name):
        name, queue = shown["name"], by_name[shown["name"]]
        sheet = sheet_shown(queue, shown["lines"][-1])
        wanted = [f"{sheet[key]:,}" for key in ("visible", "delayed", "inFlight")] + [span(sheet["age"])]
        checks.check(f"{name}: visible, delayed, in flight, age", shown["numbers"] == wanted, [shown["numbers"], wanted])
        checks.check(f"{name}: what the numbers are", shown["words"] == ["visible", "delayed", "in flight", "age"], shown)
        check_plots(checks, queue, shown, sheet)
        refused = sum(row["refused"] for row in queue.rows(sheet["clock"]))
        said = next((it for it in shown["lines"] if "efused" in it), "")
        checks.check(f"{name}: what was refused", (f"{refused} in the minutes before" in said) if refused else said.endswith(" refused by this queue in this minute"), [said, refused])
        words = {"OK": ("ok", "OK"), "ALARM": ("alarm", "ALARM"), "INSUFFICIENT_DATA": ("wait", "not enough data")}
        alarms = [[words[it["state"]][0], f"{it['name']}: {words[it['state']][1]}"] for it in queue.alarms(sheet["clock"])]
        told = [[kind, text[2:]] for kind, text in shown["alarms"]] if alarms else shown["alarms"]
        checks.check(f"{name}: its alarms", told == (alarms or [["nil", "no alarms"]]), [told, alarms])
    colours = {kind: colour for it in held["queues"] for (kind, _), colour in zip(it["alarms"], it["colours"])}
    checks.check("the states of alarms have colours of their own", len(colours) == 4 and len({colours[kind] for kind in ("ok", "alarm", "wait")}) == 3, colours)


def take_picture(browser, path):
    """Takes the picture of four queues whose names are names of queues, when the page has looked at them for two minutes."""
    server, url = started(4)
    browser.open(url, width=1100, height=770)
    browser.held(lambda it: are_drawn(4)(it) and all(looks_of(queue) >= 119 for queue in it["queues"]), 3 * PATIENCE)
    browser.picture(path)
    server.shutdown()
    server.server_close()


def check_stand_in(checks, browser):
    """Tries the page over eight queues of the stand-in, four of which have odd names: what it says, in light and dark, and whom it asks."""
    server, url = started(8, start=BEGIN + 5000)
    browser.open(url)
    held = browser.held(are_drawn(8))
    check_queues(checks, held)
    checks.check("eight queues are cards", not held["rows"], held["rows"])
    checks.check("it says that it is live", held["state"].startswith("live, ") and not held["gone"], held["state"])
    checks.check("it says how much there is of all", held["sum"].startswith("8 queues"), held["sum"])
    checks.check("it asks nobody but its server", browser.value("performance.getEntriesByType('resource').every((it) => it.name.startsWith(`${location.origin}/statistics/`))"))
    names, told = sorted(it.name for it in stand_in.Answers.queues), browser.told("article")
    checks.check("each card has the name of its queue", sorted(name for _, name, _ in told) == names, told)
    light = held["ground"]
    browser.open(url, dark=True)
    held = browser.held(are_drawn(8))
    checks.check("a dark setting has a dark ground", held["ground"] != light and sum(map(int, held["ground"][4:-1].split(","))) < 200, held["ground"])
    browser.open(url, width=380, height=700)
    browser.held(lambda it: it["queues"])
    checks.check("a narrow window has no bar to the side", browser.value("document.documentElement.scrollWidth <= innerWidth"))
    server.shutdown()
    server.server_close()


def check_search(checks, browser):
    """Tries the search: by a part of a name, and back to all."""
    server, url = started(8)
    browser.open(url)
    browser.held(are_drawn(8))
    browser.key("/", "/")
    checks.check("a slash goes to the search", browser.focused() == "find")
    for letter in "QUOT":
        browser.key(letter, letter)
    held = browser.held(lambda it: len(it["queues"]) == 1)
    checks.check("the search finds a part of a name, in any case", [it["name"] for it in held["queues"]] == ["it's \"quoted\""], held["queues"])
    checks.check("it says how many were found", held["shown"] == "1 of 8 queues", held["shown"])
    for letter in "#x":
        browser.key(letter, letter)
    held = browser.held(lambda it: not it["queues"])
    checks.check("it says that no queue was found", not held["queues"] and not held["none"], held)
    browser.key("Escape")
    held = browser.held(are_drawn(8))
    checks.check("Escape shows all again", len(held["queues"]) == 8, held["queues"])
    server.shutdown()
    server.server_close()


def check_gone(checks, browser):
    """Tries a server that goes and comes back."""
    server, url = started(8)
    browser.open(url)
    browser.held(are_drawn(8))
    server.shutdown()
    server.server_close()
    held = browser.held(lambda it: it["gone"])
    checks.check("it says that the server is gone, and since when", held["gone"] and held["state"].startswith("No answer from the server since "), held["state"])
    checks.check("what was told last still stands there", len(held["queues"]) == 8, held["queues"])
    server, _ = started(8, server.server_address[1])
    held = browser.held(lambda it: not it["gone"])
    checks.check("it goes on where the server is there again", not held["gone"] and held["state"].startswith("live, "), held["state"])
    server.shutdown()
    server.server_close()


def check_keys(checks, browser):
    """Tries the arrow keys: from card to card where one has the focus, and everywhere else what the browser does with them."""
    server, url = started(8)
    browser.open(url, height=600)
    browser.held(lambda it: len(it["queues"]) == 8)
    names, focused = sorted(it.name for it in stand_in.Answers.queues), browser.focused
    browser.key("ArrowDown")
    checks.check("an arrow scrolls where no card has the focus", browser.becomes("scrollY > 0") and focused() == "BODY", focused())
    browser.key("Tab")
    browser.key("ArrowDown")
    checks.check("an arrow is the search's there", focused() == "find", focused())
    browser.key("Tab")
    browser.key("ArrowDown")
    checks.check("an arrow is the order's there", browser.becomes("document.activeElement.id === 'order' && document.activeElement.value === 'visible'"), focused())
    browser.key("ArrowUp")
    browser.key("Tab")
    checks.check("Tab goes to the first card", focused() == names[0], focused())
    browser.key("ArrowDown")
    browser.key("ArrowDown")
    checks.check("arrows go from card to card", focused() == names[2], focused())
    browser.key("ArrowUp")
    checks.check("and back", focused() == names[1], focused())
    browser.key("ArrowUp")
    browser.key("ArrowUp")
    checks.check("and not beyond the first", focused() == names[0], focused())
    browser.key("/", "/")
    browser.key("j", "j")
    browser.held(lambda it: len(it["queues"]) == 1)
    browser.key("Enter")
    checks.check("Enter goes from the search to the first that was found", focused() == "jobs", focused())
    server.shutdown()
    server.server_close()


def check_widths(checks, browser):
    """Tries windows from that of a phone on, with cards and with an open row: nothing leaves its card, and nothing is to the side of the window."""
    for kind in (stand_in.Queue, stand_in.Large):
        for count in (8, 20):
            server, url = started(count, kind=kind)
            for width in (320, 390, 480, 1280):
                browser.open(url, width=width, height=900)
                browser.held(lambda it: len(it["queues"] or it["rows"]) == count)
                if count == 20:
                    browser.value("document.querySelector('#rows button').click()")
                browser.held(lambda it: it["queues"] and are_drawn(1)({"queues": it["queues"][:1]}) and it["queues"][0]["alarms"])
                what, held = f"{kind.__name__}, {count} queues, {width} wide", browser.value(WIDTHS)
                checks.check(f"{what}: nothing leaves its card", held["cards"] == (8 if count == 8 else 1) and not held["beyond"], held)
                checks.check(f"{what}: no bar to the side", held["document"] <= held["window"] == width, held)
                beside = 1 if width <= 480 else 4 if count == 20 else 2
                checks.check(f"{what}: {beside} plots side by side", held["beside"][0] == beside, held)
            server.shutdown()
            server.server_close()


def check_first_minutes(checks, browser):
    """Tries it over two queues that have just begun, and whose clock goes on by a second from look to look: in their first minute, and in the second."""
    server, url = started(2, minutes=0, start=BEGIN + 50_000)
    browser.open(url)
    for least in (2, 12):
        held = browser.held(lambda it: len(it["queues"]) == 2 and all(looks_of(queue) >= least for queue in it["queues"]))
        for queue, shown in zip(stand_in.Answers.queues, held["queues"], strict=True):
            sheet = sheet_shown(queue, shown["lines"][-1])
            is_first = sheet["clock"] < BEGIN + stand_in.MINUTE
            checks.check(f"{queue.name}: it is the minute that was waited for", is_first == (least == 2), sheet)
            check_plots(checks, queue, shown, sheet)
            check_seconds(checks, queue, shown, sheet)
            checks.check(f"{queue.name}: the running minute and the seconds are drawn", all(live for _, _, live in shown["plots"]), shown["plots"])
    server.shutdown()
    server.server_close()


def check_one(checks, browser):
    """Tries it over one queue with one of everything: no word is plural."""
    server, url = started(1, kind=stand_in.One, minutes=1, start=BEGIN + 5000)
    browser.open(url)
    held = browser.held(are_drawn(1))
    checks.check("one queue", held["sum"].split() == "1 queue 1 visible 1 delayed 1 in flight".split(), held["sum"])
    wanted = ["This minute: 1 sent (1 byte), 1 received, 1 deleted, 1 empty receive, 1 dead letter", "1 call refused by this queue in this minute, 1 in the minute before"]
    queue = held["queues"][0]
    checks.check("one of everything", queue["lines"][:2] == wanted and queue["lines"][2].startswith("The journal counts as 1 line at "), queue["lines"])
    checks.check("one minute", queue["plots"][0][0] == "sent in the last 1 minute: up to 1, this minute 1", queue["plots"])
    browser.open("about:blank")
    browser.open(f"{url}#dead")
    held = browser.held(are_drawn(1))
    checks.check("one of one", held["shown"] == "1 of 1 queue", held["shown"])
    server.shutdown()
    server.server_close()


def check_pointer(checks, browser):
    """Tries the pointer on a plot: it is told the number of the column below it, and without it how much there was at most."""
    server, url = started(1, start=BEGIN + 5000)
    browser.open(url)
    browser.held(are_drawn(1))
    queue = stand_in.Answers.queues[0]
    row = queue.rows(BEGIN)[90]
    clock = time.strftime("%H:%M", time.gmtime(row["minute"] * 60))
    for part, words in ((90.5 / 186, f"{row['sent']} at {clock}"), (185 / 186, "{} this minute")):
        browser.point(0, part)
        wanted = lambda it: words.format(it["queues"][0]["plots"][0][0].rpartition(" ")[2])
        held = browser.held(lambda it: it["queues"][0]["said"][0] == wanted(it))
        checks.check(f"the pointer is told {words}", held["queues"][0]["said"][0] == wanted(held), held["queues"])
    browser.point(3, 0.5)
    held = browser.held(lambda it: it["queues"][0]["said"][0].startswith("up to "))
    checks.check("and without it, how much there was at most", held["queues"][0]["said"][0].startswith("up to "), held["queues"])
    server.shutdown()
    server.server_close()


def row_wanted(queue, clock):
    """Returns what the row of a queue has at a time."""
    sheet, states = queue.sheet(clock), {it["name"]: it["state"] for it in queue.alarms(clock)}
    numbers = [sheet["visible"], sheet["delayed"], sheet["inFlight"], *(sheet["current"][key] for key in ("sent", "received", "deleted", "refused"))]
    on = ", ".join(name for name, state in states.items() if state == "ALARM")
    alarms = f"\u25b2 {on}" if on else "\u25cb not enough data" if "INSUFFICIENT_DATA" in states.values() else "\u25cf OK" if states else ""
    told = [f"{it:,}" for it in numbers]
    return [*told[:3], span(sheet["age"]), *told[3:], alarms]


def check_rows(checks, browser):
    """Tries it over twenty queues, which are rows of a table: what they say, and what a screen reader is told."""
    server, url = started(20, start=BEGIN + 5000)
    browser.open(url)
    queues = sorted(stand_in.Answers.queues, key=lambda it: it.name)

    def are_told(held):
        """Returns whether the rows have what stood in the queues at the last look, or at the one before."""
        now, told = stand_in.Answers.now(), [[it["name"], *it["numbers"]] for it in held["rows"]]
        return any(told == [[it.name, *row_wanted(it, at)] for it in queues] for at in (now, now - 1000))

    held = browser.held(are_told)
    checks.check("twenty queues are rows, in the order of their names, with their numbers and alarms", are_told(held), held["rows"])
    checks.check("no card is open", not held["queues"] and all(it["open"] == "false" and it["card"] is None for it in held["rows"]), held["rows"])
    checks.check("no name of a row is taken for markup", (held["title"], held["scripts"], held["made"]) == ("Jutkariq", 1, 0), held)
    told, names = browser.told("table", "columnheader", "rowheader", "button", "row"), [it.name for it in queues]
    named = lambda role: [name for it, name, _ in told if it == role]
    checks.check("there is one table", len(named("table")) == 1 and named("table")[0].startswith("Queues"), told)
    columns = ["queue", "visible", "delayed", "in flight", "age", *(f"{it} this minute" for it in ("sent", "received", "deleted", "calls refused by the queue")), "alarms"]
    checks.check("its columns have heads", sorted(named("columnheader")) == sorted(columns), told)
    checks.check("its rows have heads", sorted(named("rowheader")) == names and len(named("row")) == 21, told)
    checks.check("each row has a button that says that it is closed", sorted(it[1:] for it in told if it[0] == "button") == [(name, False) for name in names], told)
    server.shutdown()
    server.server_close()


def check_opening(checks, browser):
    """Tries the keys in the table: they open a row to its card, and close it."""
    server, url = started(20, start=BEGIN + 5000)
    browser.open(url)
    names, by_name = sorted(it.name for it in stand_in.Answers.queues), {it.name: it for it in stand_in.Answers.queues}
    opened = lambda held: [(it["name"], it["card"]) for it in held["rows"] if it["open"] == "true"]
    browser.held(lambda it: len(it["rows"]) == 20)
    for _ in range(3):
        browser.key("Tab")
    checks.check("Tab goes to the first row", browser.focused() == names[0], browser.focused())
    browser.key("ArrowDown")
    browser.key("ArrowDown")
    checks.check("arrows go from row to row", browser.focused() == names[2], browser.focused())
    browser.key("Enter")
    held = browser.held(are_drawn(1))
    checks.check("Enter opens a row to its card", opened(held) == [(names[2], names[2])] and held["focused"] == names[2], held)
    queue = by_name[names[2]]
    sheet = sheet_shown(queue, held["queues"][0]["lines"][-1])
    check_plots(checks, queue, held["queues"][0], sheet)
    told = browser.told("article", "button")
    checks.check("the card has a name, and the button says that it is open", {("article", names[2], None), ("button", names[2], True)} <= {*told}, told)
    browser.key("Enter")
    held = browser.held(lambda it: not it["queues"])
    checks.check("Enter closes it again", not held["queues"] and not opened(held) and held["focused"] == names[2], held)
    browser.key(" ")
    held = browser.held(are_drawn(1))
    checks.check("a space opens it", opened(held) == [(names[2], names[2])], held)
    check_opened(checks, browser, names, opened)
    server.shutdown()
    server.server_close()


def check_opened(checks, browser, names, opened):
    """Tries what is done beside an open row: another is opened and closed, and what is searched for hides both and shows them again."""
    browser.key("ArrowDown")
    browser.key("Enter")
    held = browser.held(are_drawn(2))
    checks.check("another opens beside it", opened(held) == [(name, name) for name in names[2:4]], held)
    browser.key("Escape")
    held = browser.held(are_drawn(1))
    checks.check("Escape closes that", opened(held) == [(names[2], names[2])] and held["focused"] == names[3], held)
    browser.key("/", "/")
    for letter in "jobs":
        browser.key(letter, letter)
    held = browser.held(are_drawn(1))
    checks.check("few that are found are cards", not held["rows"] and [it["name"] for it in held["queues"]] == ["jobs"], held)
    browser.key("Escape")
    held = browser.held(lambda it: len(it["rows"]) == 20 and are_drawn(1)(it))
    checks.check("and all are rows again, of which the open one is open", opened(held) == [(names[2], names[2])], held)


def check_nine(checks, browser):
    """Tries it over nine queues, which are rows, and eight, which are cards: what has the focus keeps it when a queue goes and comes."""
    server, url = started(9)
    browser.open(url)
    held = browser.held(lambda it: len(it["rows"]) == 9)
    checks.check("nine queues are rows", len(held["rows"]) == 9 and not held["queues"], held)
    for _ in range(3):
        browser.key("Tab")
    queues, first = stand_in.Answers.queues, browser.focused()
    stand_in.Answers.queues = [it for it in queues if it.name != "mail-out"]
    held = browser.held(are_drawn(8))
    checks.check("eight of them are cards", len(held["queues"]) == 8 and not held["rows"], held)
    checks.check("its card has the focus of a row", held["focused"] == first and browser.value("document.activeElement.matches('article')"), held["focused"])
    stand_in.Answers.queues = queues
    held = browser.held(lambda it: len(it["rows"]) == 9)
    checks.check("its row has the focus of a card", held["focused"] == first and browser.value("document.activeElement.matches('button')"), held["focused"])
    server.shutdown()
    server.server_close()


def check_many(checks, browser):
    """Tries it over 1,000 queues: all are named, those on the screen are drawn and asked for, and each is found."""
    server, url = started(1000)
    browser.open(url)
    drawn = lambda held: [it["name"] for it in held["rows"] if it["numbers"]]
    held = browser.held(lambda it: len(it["rows"]) == 1000 and drawn(it) and any(row["numbers"] and row["numbers"][-1] for row in it["rows"]))
    checks.check("1,000 queues are named", len({it["name"] for it in held["rows"]}) == 1000, len(held["rows"]))
    checks.check("what is on the screen is drawn, and no more", 30 <= len(drawn(held)) <= 60, len(drawn(held)))
    browser.held(lambda it: stand_in.Answers.asked.get("/alarms", 0) >= len(drawn(it)))
    asked = dict(stand_in.Answers.asked)
    checks.check("alarms are asked for of what is on the screen, and rows of no row that is closed", 30 <= asked.get("/alarms", 0) <= 120 and "/rows" not in asked, asked)
    browser.value("scrollTo(0, document.body.scrollHeight / 2)")
    middle = held["rows"][500]["name"]
    held = browser.held(lambda it: middle in drawn(it) and len(drawn(it)) <= 80)
    checks.check("what is scrolled to is drawn", middle in drawn(held), drawn(held))
    checks.check("what is scrolled away is not", len(drawn(held)) <= 80, len(drawn(held)))
    browser.open("about:blank")
    browser.open(f"{url}#many-0777")
    held = browser.held(are_drawn(1))
    checks.check("a name behind # is looked for at once", [it["name"] for it in held["queues"]] == ["many-0777"], [it["name"] for it in held["queues"]][:5])
    server.shutdown()
    server.server_close()


def started(count, port=0, **how):
    """Starts the stand-in, and returns it with its address."""
    server = stand_in.serving(port, count, **how)
    threading.Thread(target=server.serve_forever, daemon=True).start()
    return server, f"http://127.0.0.1:{server.server_address[1]}/"


def fetched(url):
    """Returns the content type of a page, and its text; nothing of a page that is refused."""
    try:
        with urllib.request.build_opener(urllib.request.ProxyHandler({})).open(url, timeout=PATIENCE) as it:
            return it.headers.get("Content-Type", ""), it.read().decode()
    except OSError:
        return "", ""


def check_server(checks, browser):
    """Tries the page over the server, with the queues of its example, which are filled: both have one state with the page."""
    program = subprocess.run([f"{ROOT}/tools/run", "--which", "sqs_server"], stdout=subprocess.PIPE, text=True, check=True).stdout.strip()
    with Server(f"{ROOT}/crates/sqs_server/example.toml", program) as server:
        page = f"{server.statistics_endpoint}/"
        kind, text = fetched(page)
        is_served = kind.startswith("text/html") and text == stand_in.page()
        checks.check("the server serves the page of page.rt", is_served, kind)
        if not is_served:
            return
        for number in range(7):
            server.ask("SendMessage", {"QueueUrl": "jobs", "MessageBody": f"message {number}"})
        server.ask("SendMessage", {"QueueUrl": "jobs", "MessageBody": "later", "DelaySeconds": 600})
        server.ask("ReceiveMessage", {"QueueUrl": "jobs", "MaxNumberOfMessages": 2, "VisibilityTimeout": 600})
        browser.open(page)
        wanted, none = ["5", "1", "2"], {"numbers": [], "alarms": [], "plots": [["", 0, ""]] * 8}
        jobs_of = lambda held: next((it for it in held["queues"] if it["name"] == "jobs"), none)
        held = browser.held(lambda it: jobs_of(it)["numbers"][:3] == wanted and jobs_of(it)["alarms"])
        checks.check("the server's queues stand there", [it["name"] for it in held["queues"]] == ["dead", "jobs"], held["queues"])
        jobs = jobs_of(held)
        checks.check("visible, delayed and in flight are what was done", jobs["numbers"][:3] == wanted, jobs)
        checks.check("its alarm has its state", any("backlog: " in text for _, text in jobs["alarms"]), jobs)
        checks.check("Prometheus is told the same", 'jutkariq_queue_messages_visible{queue="jobs"} 5\n' in fetched(f"{page}metrics")[1])
        check_server_plots(checks, browser, server, jobs_of)


def check_server_plots(checks, browser, server, jobs_of):
    """Tries the plots over the server: what is sent while the page looks is drawn by seconds, and with what was sent before in the running minute."""
    browser.held(lambda it: looks_of(jobs_of(it)) >= 2)
    for number in range(9):
        server.ask("SendMessage", {"QueueUrl": "jobs", "MessageBody": f"more {number}"})

    def wanted():
        """Returns what the plot of sent messages is to say."""
        rows, now = [it["sent"] for it in server.rows("jobs")], server.statistics("jobs")["current"]["sent"]
        return f"sent in the last {len(rows)} minute{'s' * (len(rows) != 1)}: up to {max([now, *rows])}, this minute {now}" if rows else f"sent this minute: {now}"

    plots = jobs_of(browser.held(lambda it: jobs_of(it)["plots"][0][0] == wanted() and "up to 0" not in jobs_of(it)["plots"][1][0]))["plots"]
    checks.check("the running minute of the server is drawn", plots[0][0] == wanted() and plots[0][2], [plots, wanted()])
    found = re.fullmatch(r"sent a second in the last \d+ seconds: up to (\d+(?:\.\d)?), last .*", plots[1][0])
    checks.check("its seconds are drawn", found and 1 <= float(found[1]) <= 9 and plots[1][2], plots)


CHECKS = (
    check_stand_in, check_search, check_gone, check_keys, check_pointer, check_widths, check_first_minutes, check_one, check_rows, check_opening,
    check_nine, check_many, check_server,
)


def main(words):
    """Tries it all, and returns the status."""
    if len(words) > 1 or words and words[0].startswith("-"):
        print(__doc__, file=sys.stderr)
        return 2
    program = next(filter(None, map(shutil.which, BROWSERS)), None)
    if not program:
        print("page-test: no chromium: install Debian's package chromium; nothing was tried", file=sys.stderr)
        return 3
    checks = Checks()
    with tempfile.TemporaryDirectory(prefix="page-", ignore_cleanup_errors=True) as room:
        browser = Browser(program, room)
        try:
            if words:
                take_picture(browser, words[0])
            for check in CHECKS:
                check(checks, browser)
        finally:
            browser.end()
    print(f"{checks.passed} passed, {checks.failed} failed")
    return 1 if checks.failed else 0


if __name__ == "__main__":
    sys.exit(main(sys.argv[1:]))
