#!/usr/bin/env python3
"""Makes pages with page.py, drives them in a headless browser, and compares what they show with the program's own sketch.

usage: pages.py PROGRAM

The networks: each script of the examples, a few drawn ones, two on one page, two judged by a policy, those behind the steps of a few changes, a
campus of 50 switches, and one with strange names. Needed: Chromium, its driver and Selenium (Debian: chromium, chromium-driver,
python3-selenium). Where one isn't there no page is opened, and a line tells which; where this Python lacks Selenium, /usr/bin/python3 is
tried. What page.py does with its words, and what stands in a page, is checked in any case. The exit status is 1 where something differs, or
where it takes longer than its time.
"""

import collections
import contextlib
import glob
import html
import importlib.util
import itertools
import json
import os
import re
import shlex
import shutil
import signal
import subprocess
import sys
import tempfile
import time
import xml.etree.ElementTree

TOP = os.path.join(os.path.dirname(os.path.abspath(__file__)), os.pardir)
SAMPLES = os.path.join(TOP, "examples")
SYSTEM_PYTHON = "/usr/bin/python3"
# It takes three minutes.
SECONDS, SECONDS_OF_A_STEP, SECONDS_TO_END = 540, 60, 20
MOST_PORTS, MOST_FAILURES, MOST_VLANS, MOST_PATHS = 16, 16, 6, 24
CAMPUS = ["4", "10"]
# Of the drawn networks of sketch.py some, with shared LANs, links of a class, RSTP bridges and restricted roles.
DRAWN = (0, 2, 9, 10)
# And of the drawn changes of steps_runs.py some that move roots, cut VLANs and join them.
DRAWN_CHANGES = (48, 67, 107)
# What page.py writes of the networks.
DATA = re.compile(r'<script id="data" type="application/json">(.*)</script>')
FLAGS = ("headless=new", "no-sandbox", "disable-gpu", "disable-dev-shm-usage", "window-size=1440,1100")
FORWARDING = {"Root", "Designated", "Master"}
BLOCKING = {"Alternate", "Backup"}

# nothing is to be left beside what is imported
sys.dont_write_bytecode = True

import page_views  # noqa: E402
import sketch  # noqa: E402
import steps_runs  # noqa: E402

# A region, a title and names that a page without care would take for its own; of two links that one is down; a port alone.
STRANGE_TITLE = '</title><script>document.title = "taken"</script> & "@DATA@"'
STRANGE = """addbridge constructor 02:00:00:00:00:01
addbridge toString 02:00:00:00:00:02
addbridge 7 02:00:00:00:00:03
setmstconfid constructor 1 </script><b>&'"@CODE@
setvid2mstid constructor 1 10
addlan valueOf
addlan spare
addlan shared
addlan alone
addport constructor 1
addport constructor 2
addport constructor 3
addport toString 1
addport toString 2
addport toString 3
addport 7 1
addport 7 2
addport 7 3
plug constructor 1 valueOf
plug toString 1 valueOf
plug constructor 2 spare
plug toString 2 spare
plug constructor 3 shared
plug toString 3 shared
plug 7 1 shared
plug 7 2 shared
plug 7 3 alone
setportvlans 7 1 none
lan spare down
"""
# Promises that the campus doesn't keep, of each kind, and some that are refused.
REASONS = [
    "root 0 core2", "root 1 core1 next dist1", "region *", "role 0 acc*:2 Root,Designated", "role 1 acc*:* Disabled", "always reach 1-4094 acc1,nobody",
    "always apart 10,20 acc1 acc2", "leaf 0 core1,dist*", "depth 0 1",
    "hops 30 1 acc*", "via 30 acc1 core1 dist2", "always via 30 acc1 core1 core2", "carries dist2-acc1 10-12", "avoids core2-dist1 30", "root 9 core1", "no such",
    "after bridge dist* avoids core1-dist1 1-4094", "after lan * depth 1 0", "carries nothing 1", "always root 0 core2",
]
REFUSED = "addbridge A 02:00:00:00:00:01\nno <b>such</b> line\nplug A 1 x\nsettreeprio A 0 16\n"

# What the page shows, in one question.
VIEW = """
const all = (selector, of = document) => [...of.querySelectorAll(selector)];
return {
  signs: all("#network .port").map(it => [it.dataset.port, it.dataset.role, it.classList.contains("changed")]),
  roots: all("#network .node.root").map(it => it.dataset.bridge),
  carrying: [...new Set(all("#network .cable.carries").map(it => it.dataset.lan))],
  crosses: all("#network .cross").length,
  banner: document.getElementById("banner").hidden ? null : document.getElementById("banner").innerText,
  warned: document.getElementById("banner").className === "warned",
  heading: document.querySelector("#panel h2").textContent,
  printed: all("#panel .why code").map(it => it.textContent),
  rows: all("#sheet .row").map(it => ({...it.dataset})),
  title: document.title,
  elements: all("header b, header script, #panel script").length,
  chips: all(".chip.warned").map(it => it.textContent),
};"""
# What it shows of a change, or nothing where it has none.
STEP = """
const at = id => document.getElementById(id), told = at("steptold").querySelector("code");
return at("change").hidden ? null : {
  place: at("place").textContent, value: at("step").value, max: at("step").max, address: location.hash,
  printed: told ? told.textContent.split("\\n") : [], told: at("steptold").innerText, otherwise: network !== networks[place],
};"""
CLICK = """
const at = document.querySelector(arguments[0]);
at.dispatchEvent(new MouseEvent("click", { bubbles: true }));"""
ENTER = """
const box = document.getElementById("vlan");
box.value = arguments[0];
box.dispatchEvent(new Event("input"));"""
# The path between two switches in a VLAN, and after which failures it is another one.
PATHS = """
const [vid, from, to] = arguments, paths = new Paths(network), { count, others } = paths.always(vid, from, to);
const path = paths.path(vid, from, to, null), by = path => (path ? ` hops ${path.length}${path.length ? ` by ${bridgesOf(from, path).join()}` : ""}` : " none");
return [
  `path ${vid} ${from} ${to}${path ? ` hops ${path.length}` : " none"}`,
  ...(path ?? []).map(({ from, lan, to }, i) => `hop ${i + 1} ${from} ${lan} ${to}`),
  ...others.map(({ failure, path }) => `${failure.key}${by(path)}`),
  `path failures ${count} other ${others.filter(it => it.path).length} none ${others.filter(it => !it.path).length}`,
];"""
# What is told beside the picture of the network after the failure that is shown: roots, blocked ports, what LANs carry, and costs to the root.
AFTER = """
const { failure } = shown, trees = network.treeNumbers;
return {
  roots: trees.flatMap(tree => network.rootsIn(tree, failure).map(it => [tree, it.root, it.bridges.length, it.next])),
  blocked: trees.flatMap(tree => network.blockedIn(tree, failure).map(port => `${tree} ${port}`)).sort(),
  carried: Object.fromEntries([...network.lans.keys()].map(lan => [lan, network.carried(lan, failure).text])),
  costs: trees.flatMap(tree => [...network.bridges.keys()].filter(it => network.root(tree, it, failure) !== null)
    .map(it => [tree, it, network.cost(tree, it, failure).ext ?? null, network.cost(tree, it, failure).int])),
  told: document.getElementById("panel").innerText,
};"""
ISLANDS = "return arguments[0].map(vid => network.islands(vid, shown.failure));"
FRAME = "return document.getElementById('network').getAttribute('viewBox');"


class Expectations:
    def __init__(self):
        self.passed = self.failed = 0

    def equal(self, what, found, wanted):
        if found == wanted:
            self.passed += 1
            return
        self.failed += 1
        print(f"FAILED {what}: {str(found)[:400]}, wanted {str(wanted)[:400]}", flush=True)


def spread(items, most):
    """At most so many of a list, from all over it."""
    items = list(items)
    return items[:: -(-len(items) // most) or 1]


def in_order(name):
    """Names with numbers go by these."""
    return [int(it) if it.isdecimal() else it for it in re.split(r"([0-9]+)", name)]


# ---- the browser


def missing():
    """What isn't there of what drives a page, by name."""
    driver, selenium = shutil.which("chromedriver"), importlib.util.find_spec("selenium")
    needed = {"chromium": chromium(), "chromium-driver": driver, "python3-selenium": selenium}
    return [name for name, found in needed.items() if not found]


def chromium():
    return shutil.which("chromium") or shutil.which("chromium-browser") or shutil.which("google-chrome")


def with_selenium():
    """Begins again with the system's Python where that has Selenium and this one hasn't."""
    if importlib.util.find_spec("selenium") or not os.path.exists(SYSTEM_PYTHON) or os.path.samefile(sys.executable, SYSTEM_PYTHON):
        return
    if subprocess.run([SYSTEM_PYTHON, "-c", "import selenium"], capture_output=True, check=False).returncode == 0:
        os.execv(SYSTEM_PYTHON, [SYSTEM_PYTHON, os.path.abspath(__file__), *sys.argv[1:]])


class Browser:
    """A headless Chromium of its own, with its files in a folder."""

    def __init__(self, folder):
        from selenium import webdriver  # where it is missing nothing of this is reached
        from selenium.webdriver.chrome.service import Service

        options = webdriver.ChromeOptions()
        options.binary_location = chromium()
        for flag in (*FLAGS, f"user-data-dir={folder}/profile"):
            options.add_argument(f"--{flag}")
        options.add_experimental_option("prefs", {"download.default_directory": folder})
        options.set_capability("goog:loggingPrefs", {"browser": "ALL"})
        self.folder = folder
        self.driver = webdriver.Chrome(options=options, service=Service(shutil.which("chromedriver")))
        self.driver.set_page_load_timeout(SECONDS_OF_A_STEP)
        self.driver.set_script_timeout(SECONDS_OF_A_STEP)

    def open(self, path, view=""):
        self.driver.get("about:blank")
        self.driver.get(f"file://{path}#{view}")
        self.until("return document.documentElement.dataset.checked")

    def until(self, script):
        """The value of a script, once it has one."""
        end = time.monotonic() + SECONDS_OF_A_STEP
        while time.monotonic() < end:
            value = self.driver.execute_script(script)
            if value:
                return value
            time.sleep(0.02)
        raise TimeoutError(script)

    def run(self, script, *words):
        return self.driver.execute_script(script, *words)

    def click(self, selector):
        self.run(CLICK, selector)

    def view(self):
        return self.run(VIEW)

    def compared(self):
        return self.run("const { checked, wrong } = document.documentElement.dataset; return [Number(checked), Number(wrong)];")

    def errors(self):
        return [entry["message"] for entry in self.driver.get_log("browser") if entry["level"] == "SEVERE"]

    def end(self):
        """Ends the browser and its driver; by their numbers where they don't answer any more."""
        with contextlib.suppress(Exception):
            self.driver.quit()
            return
        self.driver.service.process.kill()
        for path in glob.glob("/proc/[0-9]*/cmdline"):
            with contextlib.suppress(OSError), open(path, encoding="utf-8", errors="replace") as file:
                if f"user-data-dir={self.folder}/" in file.read():
                    os.kill(int(path.split("/")[2]), signal.SIGKILL)


# ---- what a page is to show


def roles_of(text, tree):
    """The role of each port in a tree, by its name."""
    return {sketch.at(name): port["role"] for name, port in text.trees[tree].ports.items()} if tree in text.trees else {}


def roots_of(text, tree):
    return sorted(name for name, entry in text.trees[tree].bridges.items() if entry and entry[1][0] == entry[0])


def drawn_ports(text):
    """The ports that have a sign: those that aren't alone on their LAN."""
    ports = text.trees[0].ports
    lans = collections.Counter(port["lan"] for port in ports.values())
    return {sketch.at(name) for name, port in ports.items() if lans[port["lan"]] > 1}


def cables_of(text):
    """The ports of each LAN that joins just two switches."""
    lans = {}
    for name, port in text.trees[0].ports.items():
        lans.setdefault(port["lan"], []).append(name)
    return {lan: [*map(sketch.at, names)] for lan, names in lans.items() if len(names) == 2 and names[0][0] != names[1][0]}


def having_of(text, vid):
    """The switches with a logical port in a VLAN."""
    lists = {tuple(words[1:3]): words[3] for words in text.saved if words[0] == "setportvlans"}
    lists = {(bridge, int(number)): [] if vids == "none" else sketch.numbers_in(vids) for (bridge, number), vids in lists.items()}
    return {name[0] for name in text.trees[0].ports if vid in lists.get(name, [vid])}


class Page:
    """A page that is open, the script that it was made of, as lines, and the texts of its network."""

    def __init__(self, browser, name, program, script, expect):
        self.browser, self.name, self.program, self.script, self.expect = browser, name, program, script, expect
        self.text = sketch.text_of(program, script)
        self.drawn = drawn_ports(self.text)

    def equal(self, what, found, wanted):
        self.expect.equal(f"{self.name}: {what}", found, wanted)

    def answer(self, words):
        """The lines of an answer, without those of refused lines."""
        lines = sketch.run(self.program, words, self.script)[0].splitlines()
        return [line for line in lines if not line.startswith("line ")]

    def shows(self, what, tree, text, before):
        """The page shows a tree as its text has it, and rings what was otherwise before."""
        view, roles, others = self.browser.view(), roles_of(text, tree), roles_of(before, tree)
        wanted = sorted([port, roles.get(port, "none"), roles.get(port) != others.get(port)] for port in self.drawn)
        self.equal(f"{what}, signs in tree {tree}", sorted(view["signs"]), wanted)
        self.equal(f"{what}, roots of tree {tree}", sorted(view["roots"]), roots_of(text, tree))
        return view

    def check_trees(self):
        for tree in self.text.trees:
            self.browser.click(f"#trees [data-tree='{tree}']")
            self.shows("as it stands", tree, self.text, self.text)

    def check_reasons(self):
        for port in spread(sorted(self.drawn), MOST_PORTS):
            self.browser.click(f"#network .port[data-port='{port}']")
            groups = []
            for line in self.answer(["explain", "-", *port.split(":")]):
                groups = [*groups, []] if line.startswith("explain") else [*groups[:-1], [*groups[-1], line]]
            self.equal(f"explain {port}", self.browser.view()["printed"], ["\n".join(group) for group in groups])

    def check_failures(self):
        swept = [line.split() for line in self.answer(["sweep", "-"]) if line.split()[0] in ("lan", "bridge")]
        wanted = {f"{words[0]} {words[1]}": words[-1] != "-" for words in swept}
        self.browser.click("#tabs [data-sheet='failures']")
        rows = [row["fail"] for row in self.browser.view()["rows"]]
        self.equal("failures", rows, sorted(wanted, key=lambda key: (not wanted[key], key.startswith("bridge "), in_order(key))))
        for place, key in enumerate(spread(wanted, MOST_FAILURES)):
            self.check_failure(key, wanted[key], list(self.text.trees)[place % len(self.text.trees)])
        self.equal("no failure left", self.browser.view()["crosses"], 0)

    def check_failure(self, key, is_cut, tree):
        what, name = key.split(" ")
        after = sketch.text_of(self.program, [*self.script, f"{key} {'down' if what == 'lan' else 'off'}"])
        self.browser.click(f"#sheet .row[data-fail='{key}']")
        self.browser.click(f"#trees [data-tree='{tree}']")
        view = self.shows(f"after {key}", tree, after, self.text)
        self.equal(f"{key} cuts", (view["warned"], "are cut" in view["banner"]), (is_cut, is_cut))
        self.check_after(key, after)
        if what == "bridge" or name in cables_of(self.text):
            self.equal(f"cross of {key}", view["crosses"], 2)
        # One VID of each kind that the islands make.
        kinds = list({str(islands): vid for vid, islands in after.islands.items()}.values())
        found = self.browser.run(ISLANDS, kinds)
        self.equal(f"islands after {key}", [sorted(it) for it in found], [sorted(map(list, after.islands[vid])) for vid in kinds])
        self.browser.click("#banner [data-clear]")

    def check_after(self, key, after):
        """What is told of the network after a failure is what the program says of one that has failed in its script."""
        script = [*self.script, f"{key} {'down' if key.startswith('lan ') else 'off'}"]
        summary = [line.split() for line in sketch.run(self.program, ["summary", "-"], script)[0].splitlines()]
        found = self.browser.run(AFTER)
        roots = [[int(it[1]), it[3], int(it[6]), None if it[8] == "-" else it[8]] for it in summary if it[0] == "tree"]
        self.equal(f"after {key}, roots", found["roots"], sorted(roots, key=lambda it: (it[0], in_order(it[1]))))
        blocked = [f"{it[1]} {port}" for it in summary if it[0] == "blocked" and it[2] != "-" for port in it[2].split(",")]
        self.equal(f"after {key}, blocked ports", found["blocked"], sorted(blocked))
        carried = {lan: sketch.list_of(vids) for lan in found["carried"] if (vids := sketch.carried(after, lan))}
        self.equal(f"after {key}, VLANs carried", {lan: text for lan, text in found["carried"].items() if text}, carried)
        costs = [[tree, bridge, *((int(entry[1][1]), int(entry[1][3])) if tree == 0 else (None, int(entry[1][1])))]
                 for tree, told in after.trees.items() for bridge, entry in told.bridges.items() if entry]
        self.equal(f"after {key}, costs", sorted(found["costs"]), sorted(costs))
        self.equal(f"after {key}, panel", "after this failure" in found["told"], True)

    def check_paths(self):
        """The path between two switches, and what becomes of it after each single failure, is that of the program."""
        bridges, vids = list(self.text.trees[0].bridges), sorted({str(active): vid for vid, active in self.text.active.items()}.values())
        pairs = spread(itertools.product(spread(vids, MOST_VLANS), itertools.permutations(bridges, 2)), MOST_PATHS)
        for vid, (first, last) in pairs:
            self.equal(f"path {vid} {first} {last}", self.browser.run(PATHS, vid, first, last), self.answer(["path", "-", str(vid), first, last, "always"]))

    def check_vlans(self):
        cables = cables_of(self.text)
        kinds = {str(sorted(active)): vid for vid, active in self.text.active.items()}
        for vid in spread(kinds.values(), MOST_VLANS):
            self.browser.click("#tabs [data-sheet='vlans']")
            self.browser.run(ENTER, vid)
            view, members = self.browser.view(), self.text.active[vid]
            active = {word.strip("[]") for word in members}
            forwards = sorted(port for port, role, _ in view["signs"] if role in FORWARDING)
            self.equal(f"active ports of VLAN {vid}", forwards, sorted(active & self.drawn))
            carrying = sorted(lan for lan, ports in cables.items() if all(port in members for port in ports))
            self.equal(f"links of VLAN {vid}", sorted(cables.keys() & set(view["carrying"])), carrying)
            having = having_of(self.text, vid)
            inhabited = [island for island in self.text.islands[vid] if having.intersection(island)]
            self.equal(f"VLAN {vid} is apart", view["warned"], len(inhabited) > 1)
        self.browser.click("#banner [data-clear]")

    def check_sheets(self):
        ports = [(sketch.at(name), str(tree)) for tree in self.text.trees for name, port in self.text.trees[tree].ports.items()
                 if port["role"] in BLOCKING]
        self.browser.click("#tabs [data-sheet='blocked']")
        self.equal("blocked ports", sorted((row["port"], row["tree"]) for row in self.browser.view()["rows"]), sorted(ports))
        self.browser.click("#tabs [data-sheet='links']")
        lans = {port["lan"] for port in self.text.trees[0].ports.values()}
        self.equal("links", sorted(row["lan"] for row in self.browser.view()["rows"]), sorted(lans))

    def check_comparison(self):
        compared, wrong = self.browser.compared()
        self.equal("page and program", (compared > 0, wrong), (True, 0))
        return compared

    def check_all(self):
        compared = self.check_comparison()
        self.check_trees()
        self.check_reasons()
        self.check_failures()
        self.check_vlans()
        self.check_paths()
        self.check_sheets()
        self.equal("cables behind boxes, signs that are cut", self.browser.run(page_views.HIDDEN), [])
        self.equal("errors of the browser", self.browser.errors(), [])
        return compared


# ---- single pages


def check_hand(page):
    """A switch by the mouse, Escape, dragging, an address, a number that is no VLAN, and the picture as a file."""
    from selenium.webdriver.common.action_chains import ActionChains
    from selenium.webdriver.common.by import By
    from selenium.webdriver.common.keys import Keys

    browser, driver = page.browser, page.browser.driver
    node = driver.find_element(By.CSS_SELECTOR, "#network .node")
    ActionChains(driver).move_to_element(node).click().perform()
    page.equal("a switch by the mouse", browser.view()["heading"], f"Switch {node.get_attribute('data-bridge')}")
    driver.switch_to.active_element.send_keys(Keys.ESCAPE)
    page.equal("Escape", browser.view()["heading"], "Overview")
    before = browser.run(FRAME)
    ActionChains(driver).click_and_hold(node).move_by_offset(60, 40).release().perform()
    page.equal("dragging moves, and selects nothing", (browser.run(FRAME) != before, browser.view()["heading"]), (True, "Overview"))
    browser.click("[data-zoom='in']")
    browser.click("[data-zoom='fit']")
    page.equal("all of it again", browser.run(FRAME), before)
    box = driver.find_element(By.ID, "vlan")
    box.send_keys("5000")
    page.equal("no VLAN", ("warned" in box.get_attribute("class"), browser.view()["banner"]), (True, None))
    box.send_keys(Keys.BACKSPACE * 4, "30")
    browser.click("#tabs [data-sheet='failures']")
    browser.click("#sheet .row")
    banner, url = browser.view()["banner"], driver.current_url
    page.equal("VLAN and failure in the banner", ("VLAN 30" in banner, "has failed" in banner), (True, True))
    browser.open(*url.removeprefix("file://").split("#"))
    page.equal("the same by its address", browser.view()["banner"], banner)
    browser.click("[data-zoom='save']")
    page.equal("the picture as a file", saved_picture(browser.folder), "{http://www.w3.org/2000/svg}svg")


def saved_picture(folder):
    """The first element of the picture that is saved there. While it is written it may stand there empty."""
    end = time.monotonic() + SECONDS_OF_A_STEP
    while time.monotonic() < end:
        for path in glob.glob(f"{folder}/*.svg"):
            with contextlib.suppress(xml.etree.ElementTree.ParseError):
                return xml.etree.ElementTree.parse(path).getroot().tag
        time.sleep(0.05)
    return None


def check_pair(browser, program, folder, expect):
    """Two networks on a page: each as its texts have it, with rings where the other one is otherwise."""
    paths = [os.path.join(SAMPLES, name) for name in ("campus.script", "campus-changed.script")]
    path = made(program, folder, "pair", expect, [paths[1], "--old", paths[0]])
    browser.open(path)
    old, new = [Page(browser, "pair", program, sketch.lines_of(it), expect) for it in paths]
    for time_shown, page, other in (("after", new, old), ("before", old, new), ("after", new, old)):
        browser.click(f"#times [data-net='{time_shown}']")
        page.equal(f"{time_shown} by its address", "net=before" in browser.run("return location.hash"), time_shown == "before")
        page.check_comparison()
        for tree in page.text.trees:
            browser.click(f"#trees [data-tree='{tree}']")
            page.shows(time_shown, tree, page.text, other.text)
    told = browser.run("return document.getElementById('panel').innerText")
    for line in sketch.run(program, ["diff", *paths], [])[0].splitlines():
        words = line.split()
        if words[0] == "root":
            expect.equal(f"pair: {line}", f"{words[2]} → {words[4]}" in told, True)
    expect.equal("pair: worse failures", told.count("From now on"), 2)
    expect.equal("pair: errors of the browser", browser.errors(), [])


def check_strange(browser, program, folder, expect):
    """Names, a region and a title with tags stay texts; a page whose data was changed says that it differs."""
    script = os.path.join(folder, "strange.script")
    with open(script, "w", encoding="ascii") as file:
        file.write(STRANGE)
    path = made(program, folder, "strange", expect, [script, "--title", STRANGE_TITLE])
    browser.open(path)
    view = browser.view()
    expect.equal("strange: title and elements", (view["title"], view["elements"]), (STRANGE_TITLE, 0))
    region = "</script><b>&'\"@CODE@"
    expect.equal("strange: region", region in browser.run("return document.getElementById('panel').innerText"), True)
    compared = Page(browser, "strange", program, STRANGE.splitlines(), expect).check_all()
    with open(path, encoding="utf-8") as file:
        page = file.read()
    with open(path, "w", encoding="utf-8") as file:
        file.write(page.replace('"islands":[[', '"islands":[["nowhere"],[', 1))
    browser.open(path)
    (found, wrong), chips = browser.compared(), browser.view()["chips"]
    expect.equal("strange: a page that differs", (found, wrong > 0, chips[-1:]), (compared, True, ["page and program differ"]))


def check_refused(browser, program, folder, expect):
    """A script with refused lines, and one that is empty."""
    script = os.path.join(folder, "refused.script")
    with open(script, "w", encoding="ascii") as file:
        file.write(REFUSED)
    told = [f"page.py: {script}: line {line}" for line in ("2 E01 no such command", "3 E05 no such port", "4 E02 bad argument")]
    browser.open(made(program, folder, "refused", expect, [script], 1, told))
    rows = browser.run("return document.getElementById('panel').innerText")
    expect.equal("refused: lines on the page", all(f"line {line}" in rows for line in ("2", "3", "4")), True)
    expect.equal("refused: chip", browser.view()["chips"], ["3 refused lines"])
    with open(script, "w", encoding="ascii"):
        pass
    browser.open(made(program, folder, "empty", expect, [script]))
    expect.equal("empty: compared and errors", (browser.compared()[1], browser.errors()), (0, []))


def run_page(words):
    words = [sys.executable, os.path.join(TOP, "tools", "page.py"), *words]
    return subprocess.run(words, capture_output=True, text=True, timeout=SECONDS_OF_A_STEP, check=False)


def made(program, folder, name, expect, words, status=0, told=()):
    """The page that page.py makes, which is to tell these lines."""
    path = os.path.join(folder, f"{name}.html")
    ran = run_page([program, words[0], path, *words[1:]])
    expect.equal(f"{name}: page.py", (ran.returncode, ran.stderr.splitlines()), (status, list(told)))
    return path


def check_words(program, folder, expect):
    """Wrong words and files end with a status and a line on standard error."""
    script, absent = os.path.join(SAMPLES, "campus.script"), os.path.join(folder, "absent")
    cases = [
        ([program, absent], 3, f"page.py: {absent}: No such file or directory"),
        ([absent, script], 3, f"page.py: {absent}: No such file or directory"),
        ([program, script, os.path.join(absent, "page.html")], 3, f"page.py: {absent}/page.html: No such file or directory"),
        ([program, script, "--policy", absent], 3, f"page.py: {absent}: No such file or directory"),
        ([program, script, "--old", absent], 3, f"page.py: {absent}: No such file or directory"),
        ([program, script, "--change", absent], 3, f"page.py: {absent}: No such file or directory"),
        ([program, script, "--change", script, "--old", script], 2, "page.py: error: argument --old: not allowed with argument --change"),
        (["false", script], 3, "page.py: false ask: its script: exit status 1: nothing is told"),
        (["echo", script], 3, "page.py: echo ask: the answer isn't JSON: Expecting value: line 1 column 1 (char 0)"),
        ([program], 2, "page.py: error: the following arguments are required: SCRIPT"),
        ([program, script, "--other"], 2, "page.py: error: unrecognized arguments: --other"),
    ]
    for words, status, told in cases:
        ran = run_page(words)
        expect.equal(f"page.py {words}", (ran.returncode, ran.stdout, ran.stderr.splitlines()[-1:]), (status, "", [told]))
    ran = run_page(["--help"])
    expect.equal("page.py --help", (ran.returncode, ran.stdout.startswith("usage: page.py"), ran.stderr), (0, True, ""))
    ran = run_page([program, script, "--no-sweep", "--title", "A & B"])
    found = ran.returncode, html.escape("A & B") in ran.stdout, ran.stdout.endswith("</html>\n")
    expect.equal("page.py on standard output", found, (0, True, True))


def check_data(program, folder, expect):
    """A page has what the program answers that is asked alone; and it is started twice for a page, once more for a policy and for all steps of a
    change, and four times for two networks."""
    counted, starts = os.path.join(folder, "counted"), os.path.join(folder, "starts")
    with open(counted, "w", encoding="ascii") as file:
        file.write(f'#!/bin/sh\necho >> {shlex.quote(starts)}\nexec {shlex.quote(program)} "$@"\n')
    os.chmod(counted, 0o755)
    old, new = (os.path.join(SAMPLES, name) for name in ("campus.script", "campus-changed.script"))
    keep, change = (os.path.join(SAMPLES, name) for name in ("keep.policy", "campus.change"))
    asked = [([old], 2), ([old, "--policy", keep], 3), ([old, "--policy", keep, "--change", change], 4), ([new, "--old", old], 4)]
    for words, count in asked:
        with open(starts, "w", encoding="ascii"):
            pass
        path = made(counted, folder, "data", expect, words)
        with open(starts, encoding="ascii") as file:
            expect.equal(f"page.py {words}: runs of the program", len(file.readlines()), count)
    data = data_in(path)
    expect.equal("data: differences", data["differences"], answered(program, "diff", old, new))
    for network, script in ((data["before"], old), (data["after"], new)):
        expect.equal("data: summary", network["summary"], answered(program, "summary", script))
        for port, reasons in network["reasons"].items():
            told = [record for record in answered(program, "explain", script, *port.split(":")) if record["kind"] != "explain"]
            expect.equal(f"data: {port}", list(itertools.chain.from_iterable(reasons.values())), told)
        swept = [record for record in answered(program, "sweep", script) if record["kind"] in ("lan", "bridge")]
        names = [(it["what"], it["name"], it["changed"]) for it in network["failures"]]
        expect.equal("data: failures", names, [(it["kind"], it[it["kind"]], it["port_count"]) for it in swept])


def check_promises(program, folder, expect):
    """With a policy a page has each promise that isn't kept, as `verify` tells it, of both networks."""
    policy, old, new = (os.path.join(SAMPLES, name) for name in ("campus.policy", "campus.script", "campus-changed.script"))
    path = made(program, folder, "promises", expect, [new, "--old", old, "--policy", policy])
    data = data_in(path)
    for network, script in ((data["before"], old), (data["after"], new)):
        told, promises = answered(program, "verify", script, policy), network["promises"]
        counts = promises["expectations"], promises["hold"]
        expect.equal("promises: counts", counts, (told[-1]["expectation_count"], told[-1]["hold_count"]))
        found = [(it["line"], dict([it["failure"].split(" ")]) if it["failure"] else None) for it in promises["broken"]]
        expect.equal("promises: what isn't kept", found, [(it["line"], it.get("failure")) for it in told[:-1]])
        check_reasons(program, [script, policy], promises["broken"], expect)
    return path, data["after"]["promises"]["broken"]


def printed_of(it):
    """The line of `verify` or of `steps` that a page's reason stands for."""
    word, place = ("policy", "") if it["refused"] else ("same", "") if it["again"] else ("fails", f"{it['failure'] or 'now'} ")
    return f"{word} {it['line']} {place}{it['why']}"


def check_reasons(program, words, broken, expect):
    """What a page has of promises is what `verify` prints of them."""
    printed = subprocess.run([program, "verify", *words], capture_output=True, text=True, timeout=SECONDS_OF_A_STEP, check=False).stdout
    expect.equal(f"reasons of {words}", list(map(printed_of, broken)), [line for line in printed.splitlines()[:-1] if not line.startswith("line ")])


def check_all_reasons(program, folder, expect):
    """Each reason once."""
    script, policy = os.path.join(SAMPLES, "campus.script"), written(folder, "all.policy", REASONS)
    data = data_in(made(program, folder, "reasons", expect, [script, "--policy", policy]))
    check_reasons(program, [script, policy], data["after"]["promises"]["broken"], expect)
    said = [it["said"] for it in data["after"]["promises"]["broken"]]
    expect.equal("reasons: sentences", [it for it in said if not page_views.is_sentence(it)], [])
    expect.equal("reasons: lines", sorted({it["line"] for it in data["after"]["promises"]["broken"]}), list(range(1, len(REASONS) + 1)))
    script, policy = os.path.join(SAMPLES, "campus-changed.script"), written(folder, "together.policy", ["always together 1-4094 *"])
    broken = data_in(made(program, folder, "together", expect, [script, "--policy", policy]))["after"]["promises"]["broken"]
    check_reasons(program, [script, policy], broken, expect)
    expect.equal("reasons: what stays together", {it["why"].split()[0] for it in broken}, {"together"})
    expect.equal("reasons: sentences of that", [it["said"] for it in broken if not page_views.is_sentence(it["said"])], [])
    script, policy = written(folder, "long.script", long_script()), written(folder, "long.policy", ["fits", "root 1 Z"])
    broken = data_in(made(program, folder, "long", expect, [script, "--policy", policy]))["after"]["promises"]["broken"]
    check_reasons(program, [script, policy], broken, expect)
    expect.equal("notes", {it["why"].split()[1] for it in broken}, {"hops", "age", "cost", "1"})


def long_script():
    """Two rows of switches that are too long, one of MSTP in a region and one of RSTP, and one that is off and has a tree."""
    lines = ["addbridge Z 02:00:00:00:02:00", "setvid2mstid Z 1 1", "bridge Z off"]
    for row, kind in enumerate(("mstp", "rstp")):
        for place in range(24):
            name, last = f"{kind}{place}", f"{kind}{place - 1}"
            lines += [f"addbridge {name} 02:00:00:00:0{row}:{place:02x}", f"kind {name} {kind}", f"setmstconfid {name} 0 row"]
            lines += [f"addport {name} 1", f"addport {name} 2", f"setportpathcost {name} 1 200000000", f"settreeportcost {name} 1 0 200000000"]
            if place:
                lines += [f"addlan {name}", f"plug {name} 1 {name}", f"plug {last} 2 {name}"]
    return lines


def check_promise_sheet(browser, program, folder, expect):
    """The lines that fail stand in the first sheet, and a click shows the failure in the picture."""
    path, broken = check_promises(program, folder, expect)
    browser.open(path)
    expect.equal("promises: chip", "14 of 16 promises kept" in browser.view()["chips"], True)
    failures = [it["failure"] for it in broken if it["failure"]]
    expect.equal("promises: rows", [row.get("fail") for row in browser.view()["rows"]], failures)
    for failure in failures:
        browser.click(f"#sheet .row[data-fail='{failure}']")
        view = browser.view()
        expect.equal(f"promises: {failure}", (failure.split(" ")[1] in view["banner"], view["crosses"] > 0), (True, True))
    expect.equal("promises: errors of the browser", browser.errors(), [])


def script_of(path):
    with open(path, encoding="ascii") as file:
        return file.read().splitlines()


def written(folder, name, lines):
    path = os.path.join(folder, name)
    with open(path, "w", encoding="ascii") as file:
        file.write("\n".join([*lines, ""]))
    return path


def told_in_steps(program, script, change, policy):
    """What `steps` prints of a script and a change: what it refuses of the script, what stands in front of all steps, the lines of each, and the
    last one."""
    files = [change, *([policy] if policy else [])]
    printed = subprocess.run([program, "steps", script, *files], capture_output=True, text=True, timeout=SECONDS_OF_A_STEP, check=False).stdout
    *lines, last = printed.splitlines()
    groups, refused = [[]], [line for line in lines if line.startswith("line ")]
    for line in lines[len(refused):]:
        is_done = len(groups) == 1 or any(it.startswith("step ") for it in groups[-1])
        if is_done and line.startswith(("change ", "step ")):
            groups.append([])
        groups[-1].append(line)
    return refused, groups[0], groups[1:], last


class Steps:
    """The page of a change to a script's network, and what the program says of it."""

    def __init__(self, program, folder, expect, name, paths, policy=None):
        self.program, self.expect, self.name, (self.path, self.change_path), self.policy = program, expect, name, paths, policy
        self.script, self.change = sketch.edits_of([line or "#" for line in script_of(self.path)]), script_of(self.change_path)
        refused, self.front, self.groups, self.last = told_in_steps(program, *paths, policy)
        told = [f"page.py: {self.path}: {line}" for line in refused]
        lines = [line.split(" ", 1)[1] for group in self.groups for line in group if line.startswith("change ")]
        told += [f"page.py: {self.change_path}: line {line}" for line in lines]
        words = [self.path, "--change", self.change_path, *(["--policy", policy] if policy else [])]
        self.page = made(program, folder, name, expect, words, 1 if told else 0, told)

    def equal(self, what, found, wanted):
        self.expect.equal(f"{self.name}: {what}", found, wanted)

    def step_line(self, place):
        return next(line.split() for line in self.groups[place - 1] if line.startswith("step "))

    def unkept(self, place):
        """The lines of the policy that aren't kept at a place, by what is told up to there: the last word on each."""
        told = [line.split() for line in itertools.chain(self.front, *self.groups[:place])]
        last = {words[1]: words[0] for words in told if words[0] in ("fails", "policy", "mends")}
        return [line for line, word in last.items() if word != "mends"]

    def made(self, place):
        """The script with the lines of the first steps behind it."""
        last = int(self.step_line(place)[3].split("-")[1]) if place else 0
        return steps_runs.behind(self.script, self.change, last)

    def check(self, browser):
        """Each step, from the first to the last, by the right arrow; and back, and by its address."""
        from selenium.webdriver.common.by import By
        from selenium.webdriver.common.keys import Keys

        browser.open(self.page)
        slider, count = browser.driver.find_element(By.ID, "step"), len(self.groups)
        page = Page(browser, f"{self.name}, as it is", self.program, self.made(0), self.expect)
        compared = page.check_comparison()
        self.equal("slider", browser.run(STEP)["max"], str(count))
        self.equal("steps in the sheet", [row.get("step") for row in browser.view()["rows"]], [str(it + 1) for it in range(count)])
        before = page.text
        self.check_step(page, 0, before)
        for place in range(1, count + 1):
            slider.send_keys(Keys.ARROW_RIGHT)
            page = Page(browser, f"{self.name}, step {place}", self.program, self.made(place), self.expect)
            self.check_step(page, place, before)
            before = page.text
        if count:
            slider.send_keys(Keys.ARROW_LEFT)
            self.equal("left arrow", browser.run(STEP)["value"], str(count - 1))
            browser.open(self.page, f"step={count}")
            self.check_step(page, count, self.text_before(count))
        browser.open(self.page, f"step={count + 1}")
        self.equal("no such step", browser.run(STEP)["value"], "0")
        self.equal("errors of the browser", browser.errors(), [])
        return compared

    def text_before(self, place):
        return sketch.text_of(self.program, self.made(place - 1))

    def check_step(self, page, place, before):
        """The network behind a step, with rings where the one before it had other roles, and what is told of the step."""
        browser, step = page.browser, page.browser.run(STEP)
        page.equal("place", (step["value"], step["place"].startswith(f"Step {place} of" if place else "As it is")), (str(place), True))
        page.equal("address", f"step={place}" in step["address"], place > 0)
        page.equal("as printed", step["printed"], self.groups[place - 1] if place else self.front)
        page.equal("the network of the place", step["otherwise"], False)
        for tree in page.text.trees:
            browser.click(f"#trees [data-tree='{tree}']")
            page.shows("behind the step", tree, page.text, before)
        kinds = list({str(islands): vid for vid, islands in page.text.islands.items()}.values())
        found = [sorted(it) for it in browser.run(ISLANDS, kinds)]
        page.equal("islands", found, [sorted(map(list, page.text.islands[vid])) for vid in kinds])
        page.check_sheets()
        if self.policy:
            browser.click("#tabs [data-sheet='promises']")
            found = browser.run("return [...new Set(network.promises.broken.map(it => String(it.line)))];")
            page.equal("promises", sorted(found), sorted(self.unkept(place)))
        swept = [line.split() for line in page.answer(["sweep", "-"]) if line.split()[0] in ("lan", "bridge")]
        browser.click("#tabs [data-sheet='failures']")
        page.equal("failures", sorted(row["fail"] for row in browser.view()["rows"]), sorted(" ".join(words[:2]) for words in swept))
        browser.click("#tabs [data-sheet='steps']")
        browser.click("#trees [data-tree='0']")


def check_other_versions(program, folder, expect):
    """Priorities of a change in another version than the script's are those of its own."""
    old, new, second = (os.path.join(SAMPLES, name) for name in ("campus.script", "campus-changed.script", "version-2.script"))
    made_of = subprocess.run([program, "edits", old, new], capture_output=True, text=True, timeout=SECONDS_OF_A_STEP, check=False).stdout
    data = data_in(made(program, folder, "edits", expect, [old, "--change", written(folder, "edits.change", made_of.splitlines())]))
    step, = data["change"]["steps"]
    expect.equal("edits: the network behind them", step["network"]["summary"], answered(program, "summary", new))
    bridges = [line.split()[1] for line in script_of(second) if line.startswith("addbridge ")]
    lines = ["", *(f"settreeprio {bridge} 0 {place % 16}" for place, bridge in enumerate(bridges, 3)), "", "showplan", "mark"]
    change = written(folder, "first.change", [*lines, "mstplan 2"])
    path = made(program, folder, "first", expect, [second, "--change", change], 1, [f"page.py: {change}: line {len(lines) + 1} E01 no such command"])
    step, last = data_in(path)["change"]["steps"]
    wanted = [*script_of(second), *(f"settreeprio {bridge} 0 {place % 16 * 4096}" for place, bridge in enumerate(bridges, 3))]
    wanted = answered(program, "summary", written(folder, "first.script", wanted))
    for network in (step["network"], last["network"]):
        expect.equal("a change of version 1 to a script of version 2", network["summary"], wanted)


def check_steps_data(program, folder, expect):
    """With a change a page has the steps that `steps` tells, and the network behind each as the program tells it alone."""
    script, change, policy = (os.path.join(SAMPLES, name) for name in ("campus.script", "worse.change", "keep.policy"))
    told = [f"page.py: {change}: line 8 E04 no such bridge"]
    data = data_in(made(program, folder, "worse", expect, [script, "--change", change, "--policy", policy], 1, told))
    records = answered(program, "steps", script, change, policy)
    names = {"trees": "trees", "changed": "port_count"}
    steps = [record for record in records if record["kind"] == "step"]
    expect.equal("steps: counts", [data["change"][it] for it in ("moving", "cutting", "failing", "unkept")], [3, 1, 1, 1])
    for step, record in itertools.zip_longest(data["change"]["steps"], steps):
        expect.equal("steps: a step", {key: step[key] for key in names}, {key: record[name] for key, name in names.items()})
        expect.equal("steps: lines of a step", step["lines"].split("-"), [str(it) for it in record["lines"]])
        expect.equal("steps: what turns", step["turns"], [[",".join(map(str, it["trees"])), ",".join(it["bridges"])] for it in records
                                                          if (it["kind"], it.get("step")) == ("turns", record["step"])])
        expect.equal("steps: what begins anew", step["restarts"], [f"{port['bridge']}:{port['port']}" for it in records
                                                                   if (it["kind"], it.get("step")) == ("restarts", record["step"]) for port in it["ports"]])
        for word in ("moved", "cut", "joined"):
            expect.equal(f"steps: {word}", step[word], ",".join(f"{a}-{b}" if a < b else str(a) for a, b in record[f"{word}_vids"]))
        lines = [*script_of(script), *script_of(change)[:int(step["lines"].split("-")[1])]]
        behind = written(folder, "behind.script", lines)
        for word in ("summary", "sweep"):
            found = step["network"]["summary"] if word == "summary" else [[it["what"], it["name"], it["changed"]] for it in step["network"]["failures"]]
            wanted = answered(program, word, behind)
            swept = [[it["kind"], it[it["kind"]], it["port_count"]] for it in wanted if it["kind"] in ("lan", "bridge")]
            expect.equal(f"steps: {word}", found, wanted if word == "summary" else swept)
        last = answered(program, "verify", behind, policy)[-1]
        kept = step["network"]["promises"]
        expect.equal("steps: promises", (kept["expectations"], kept["hold"]), (last["expectation_count"], last["hold_count"]))


def data_in(path):
    with open(path, encoding="utf-8") as file:
        return json.loads(DATA.search(file.read())[1])


def check_changes(browser, program, folder, expect):
    """The slider over the steps of the examples and of drawn changes. How many pages, and how many comparisons they made."""
    script, keep = (os.path.join(SAMPLES, name) for name in ("campus.script", "keep.policy"))
    cases = [("drained", (script, os.path.join(SAMPLES, "campus.change")), keep), ("worse", (script, os.path.join(SAMPLES, "worse.change")), keep)]
    empty = written(folder, "empty.change", ["# nothing"])
    cases.append(("no step", (script, empty), None))
    for number in DRAWN_CHANGES:
        paths = written(folder, f"drawn-{number}.script", sketch.drawn(number)), written(folder, f"drawn-{number}.change", steps_runs.drawn_change(number))
        policy = written(folder, "drawn.policy", steps_runs.POLICY) if number % 3 == 0 else None
        cases.append((f"change {number}", paths, policy))
    compared = sum(Steps(program, folder, expect, *case).check(browser) for case in cases)
    check_other_step(browser, folder, expect)
    return len(cases), compared


def check_other_step(browser, folder, expect):
    """A page that was changed in what a step does says that it differs."""
    with open(os.path.join(folder, "drained.html"), encoding="utf-8") as file:
        page = file.read()
    for word, told, other in (("moved", '"1-4094"', '"2-4094"'), ("joined", '""', '"7"'), ("trees", "[]", "[1]")):
        path = os.path.join(folder, "other.html")
        with open(path, "w", encoding="utf-8") as file:
            file.write(page.replace(f'"{word}":{told}', f'"{word}":{other}', 1))
        browser.open(path)
        expect.equal(f"a step with another {word}", browser.compared()[1] > 0, True)


def answered(program, word, *words):
    """The records of what a program answers that is asked alone."""
    told = subprocess.run([program, word, "--json", *words], capture_output=True, timeout=SECONDS_OF_A_STEP, check=False).stdout
    return json.loads(told.splitlines()[-1])["records"]


def check_pages(browser, program, folder, expect):
    """All pages, and how many comparisons they made themselves."""
    compared, networks = 0, {f"drawn-{number}.script": sketch.drawn(number) for number in DRAWN}
    campus = [sys.executable, os.path.join(TOP, "bench", "campus.py"), *CAMPUS]
    networks["switches.script"] = subprocess.check_output(campus, text=True, timeout=SECONDS_OF_A_STEP).splitlines()
    for name, lines in networks.items():
        with open(os.path.join(folder, name), "w", encoding="ascii") as file:
            file.write("\n".join([*lines, ""]))
    scripts = sorted(glob.glob(f"{SAMPLES}/*.script") + glob.glob(f"{SAMPLES}/small/*.script"))
    scripts += [os.path.join(folder, name) for name in networks]
    for script in scripts:
        name, lines = os.path.basename(script), sketch.lines_of(script)
        refused = [f"page.py: {script}: {line}" for line in sketch.refused(program, lines)]
        browser.open(made(program, folder, name, expect, [script], 1 if refused else 0, refused))
        page = Page(browser, name, program, sketch.edits_of(lines), expect)
        compared += page.check_all()
        if name == "campus.script":
            check_hand(page)
    check_pair(browser, program, folder, expect)
    check_strange(browser, program, folder, expect)
    check_refused(browser, program, folder, expect)
    check_promise_sheet(browser, program, folder, expect)
    views = page_views.check_views(browser, program, folder, expect, made)
    changes, more = check_changes(browser, program, folder, expect)
    return len(scripts) + 5 + views + changes, compared + more


def late(_signal, _frame):
    raise TimeoutError(f"not done in {SECONDS} seconds")


def check_in_browser(program, folder, expect):
    """All pages in a browser, where there is one."""
    lacking = missing()
    if lacking:
        print(f"skipped, no page is opened: missing {', '.join(lacking)}")
        return
    browser = Browser(folder)
    try:
        pages, compared = check_pages(browser, program, folder, expect)
        print(f"{pages} pages, {compared} comparisons of their own")
    finally:
        signal.alarm(SECONDS_TO_END)
        browser.end()


def main():
    if len(sys.argv) != 2 or sys.argv[1].startswith("-"):
        sys.exit(__doc__)
    with_selenium()
    program, expect = os.path.abspath(sys.argv[1]), Expectations()
    signal.signal(signal.SIGALRM, late)
    signal.alarm(SECONDS)
    with tempfile.TemporaryDirectory(ignore_cleanup_errors=True) as folder:
        try:
            check_words(program, folder, expect)
            check_data(program, folder, expect)
            check_promises(program, folder, expect)
            check_all_reasons(program, folder, expect)
            check_steps_data(program, folder, expect)
            check_other_versions(program, folder, expect)
            check_in_browser(program, folder, expect)
        except Exception as fault:
            expect.equal("the check", f"{type(fault).__name__}: {fault}", "no fault")
        signal.alarm(0)
    print(f"{expect.passed} passed, {expect.failed} failed")
    sys.exit(1 if expect.failed else 0)


if __name__ == "__main__":
    main()
