"""What a page of hundreds of switches is to do, and what any page does by keyboard, printed, in the dark and by Back: pages.py asks it."""

import collections
import json
import os
import re
import subprocess
import sys

TOP = os.path.join(os.path.dirname(os.path.abspath(__file__)), os.pardir)
# Of 200 switches in 11 parts, and of 1,002 in 50.
LARGE, LARGEST = (11, 16), (50, 18)
# What page.py may need itself of the large one, and when its first view is to stand.
OWN_SECONDS, OWN_MEGABYTES, VIEW_MILLISECONDS, LOADS = 5, 100, 2000, 3
MOST_SEEN, LEAST_LETTER = 60, 6
OWN = """
import resource, runpy, sys
sys.argv = sys.argv[1:]
sys.path.insert(0, sys.argv[0].rsplit("/", 1)[0])
try:
    runpy.run_path(sys.argv[0], run_name="__main__")
finally:
    used = resource.getrusage(resource.RUSAGE_SELF)
    # (of this process alone: ru_maxrss begins with what the one before it held)
    held = next(line.split()[1] for line in open("/proc/self/status") if line.startswith("VmHWM:"))
    print(used.ru_utime + used.ru_stime, int(held) / 1024)
"""
# Names that just fit, on cables that lie beside each other.
NAMES = ["WWWWWWWWWWWWWWWW", "distribution-one", "mmmmmmmmmmmmmmmm"]
LAID = """
const rects = [...document.querySelectorAll("#network .node")].map(it => it.querySelector(".box:last-of-type, .box").getBoundingClientRect());
const over = (a, b) => a.left < b.right - 1 && b.left < a.right - 1 && a.top < b.bottom - 1 && b.top < a.bottom - 1;
const pairs = list => list.filter((a, i) => list.slice(i + 1).some(b => over(a, b))).length;
const names = [...document.querySelectorAll("#network .node")].filter(it => it.querySelector(".name"));
const labels = [...document.querySelectorAll("#network .cable .name")].map(it => it.getBoundingClientRect()).filter(it => it.width);
return {
  boxes: rects.length, over: pairs(rects), labels: labels.length, labelsOver: pairs(labels),
  wide: names.filter(it => it.querySelector(".name").getBoundingClientRect().width > it.querySelector(".box").getBoundingClientRect().width).length,
  letter: Math.min(...names.map(it => parseFloat(getComputedStyle(it.querySelector(".name")).fontSize))) * document.getElementById("network").getScreenCTM().a,
};"""
# Cables that pass behind a switch's box, and signs of ports that are wider written than drawn.
HIDDEN = """
const boxes = [...picture.spots].map(([name, spot]) => ({ name, ...edgesOf(spot) })), found = [];
for (const cable of picture.cables) {
  const points = cable.points(), drawn = [], own = cable.ends.map(it => it.node);
  for (let i = 1; i < points.length; i += points[i][2] ? 3 : 1) {
    const curve = points[i][2] ? points.slice(i - 1, i + 3) : [points[i - 1], points[i - 1], points[i], points[i]];
    for (let part = 0; part <= 32; part += 1) drawn.push(pointOf(curve, part / 32));
  }
  const left = Math.min(...drawn.map(it => it[0])), right = Math.max(...drawn.map(it => it[0]));
  for (const box of boxes.filter(it => !own.includes(it.name) && it.right > left && it.left < right)) {
    if (drawn.some(([x, y]) => x > box.left && x < box.right && y > box.top && y < box.bottom)) found.push(`${cable.key} behind ${box.name}`);
  }
}
for (const [port, sign] of picture.signs) {
  const [text, shape] = ["text", ".shape"].map(it => sign.querySelector(it).getBBox().width);
  if (text > shape) found.push(`${port} is cut`);
}
return found;"""
# Two fingers go apart, and whether the picture is larger then; and what a finger moves.
PINCH = """
const svg = document.getElementById("network"), { left, top } = svg.getBoundingClientRect(), before = sight.frame.width;
const send = (type, pointerId, x) => svg.dispatchEvent(new PointerEvent(type, { pointerId, clientX: left + x, clientY: top + 100, bubbles: true }));
send("pointerdown", 1, 100);
send("pointerdown", 2, 140);
send("pointermove", 2, 220);
send("pointerup", 1, 100);
send("pointerup", 2, 220);
return [sight.frame.width < before * 0.6, svg.style.touchAction];"""
SIGNS = 'return [...document.querySelectorAll("#network .port")].map(it => [it.dataset.port, it.dataset.role]);'
IN_SIGHT = """
const node = document.querySelector(`#network [data-bridge="${arguments[0]}"]`).getBoundingClientRect();
const all = document.getElementById("network").getBoundingClientRect();
return node.left >= all.left && node.right <= all.right && node.top >= all.top && node.bottom <= all.bottom;"""
# What the keyboard is to reach, and how many of these it doesn't, or has no words for.
REACHED = """
const kinds = { switches: "#network .node", cables: "#network .cable", ports: "#network .port", rows: "#sheet .row", links: "#panel .jump" };
return Object.fromEntries(Object.entries(kinds).map(([kind, selector]) => {
  const all = [...document.querySelectorAll(selector)], isSign = selector.startsWith("#network");
  return [kind, [all.length > 0, all.filter(it => it.tabIndex !== 0 || isSign && !(it.getAttribute("role") === "button" && it.getAttribute("aria-label"))).length]];
}));"""
HEADING = 'return document.querySelector("#panel h2").textContent;'
BANNER = 'const banner = document.getElementById("banner"); return banner.hidden ? null : banner.innerText;'


def campus(pairs, access):
    words = [sys.executable, os.path.join(TOP, "bench", "campus.py"), str(pairs), str(access)]
    return subprocess.check_output(words, text=True).splitlines()


def written(folder, name, lines):
    path = os.path.join(folder, name)
    with open(path, "w", encoding="ascii") as file:
        file.write("\n".join([*lines, ""]))
    return path


def names_script():
    """Names of 16 letters, in a network that is all RSTP, with cables that lie beside each other."""
    lines = [line for place, name in enumerate(NAMES, 1) for line in (f"addbridge {name} 02:00:00:00:00:{place:02x}", f"kind {name} rstp")]
    for number in range(1, 8):
        lan, ends = f"parallel-cable-{number}", NAMES[:2] if number < 5 else NAMES[1:]
        lines.append(f"addlan {lan}")
        lines += [line for name in ends for line in (f"addport {name} {number}", f"plug {name} {number} {lan}")]
    return lines


def own_needs(program, script, path):
    """The processor's seconds and the megabytes that page.py needs itself, without PROGRAM's."""
    words = [sys.executable, "-c", OWN, os.path.join(TOP, "tools", "page.py"), program, script, path, "--no-sweep"]
    return map(float, subprocess.run(words, capture_output=True, text=True, check=True).stdout.split())


def network_in(lines):
    """Switches and LANs of a script, as far as their places go by them."""
    words = [line.split() for line in lines]
    lans = collections.defaultdict(lambda: {"ports": []})
    for word in words:
        if word[0] == "plug":
            lans[word[3]]["ports"].append(f"{word[1]}:{word[2]}")
    bridges = {word[1]: {} for word in words if word[0] == "addbridge"}
    tree = {"kind": "tree", "tree": 0, "root": "c1", "next": "c2", "bridge_count": len(bridges)}
    return {"bridges": bridges, "lans": lans, "interfaces": {}, "summary": [tree]}


def check_places(expect):
    """Each of 1,002 switches is in one place of the picture, which begins with few boxes."""
    sys.path[:0] = [os.path.join(TOP, "tools", "web"), os.path.join(TOP, "tools")]
    import places  # the tool's own
    network = network_in(campus(*LARGEST))
    made = places.layout([network])
    boxes = made["boxes"]
    expect.equal("places of 1,002 switches", sorted(inside(made["rows"], boxes, True)), sorted(network["bridges"]))
    expect.equal("places: few boxes", len(inside(made["rows"], boxes, False)) <= MOST_SEEN, True)


def inside(rows, boxes, is_all):
    """The names in rows, with those in boxes: in all of them, or in those that are open."""
    found = []
    for name in (name for row in rows for name in row):
        is_open = name in boxes and (is_all or boxes[name]["open"])
        found += inside(boxes[name]["rows"], boxes, is_all) if is_open else [name]
    return found


def check_large(browser, program, folder, expect):
    """200 switches: what page.py needs, the first view, the boxes, the search, and the sheet of switches."""
    script, path = written(folder, "large.script", campus(*LARGE)), os.path.join(folder, "large.html")
    seconds, megabytes = own_needs(program, script, path)
    expect.equal(f"large: page.py needs {seconds:.1f} s, {megabytes:.0f} MB", (seconds < OWN_SECONDS, megabytes < OWN_MEGABYTES), (True, True))
    times = []
    while len(times) < LOADS and min(times, default=VIEW_MILLISECONDS) >= VIEW_MILLISECONDS:
        browser.open(path)
        painted = browser.run('return performance.getEntriesByName("first-contentful-paint")[0]?.startTime ?? 0;')
        times.append(max(painted, int(browser.run("return document.documentElement.dataset.shown"))))
    expect.equal(f"large: first view after {times} ms", min(times) < VIEW_MILLISECONDS, True)
    expect.equal("large: compared", browser.compared()[1], 0)
    laid = browser.run(LAID)
    expect.equal("large: boxes", (laid["boxes"] <= MOST_SEEN, laid["over"], laid["wide"], laid["letter"] > LEAST_LETTER), (True, 0, 0, True))
    expect.equal("large: cables behind boxes", browser.run(HIDDEN), [])
    check_boxes(browser, path, expect)
    check_find(browser, expect)
    expect.equal("large: errors of the browser", browser.errors(), [])


def check_boxes(browser, path, expect):
    """A box opens and closes, by a click and by Enter; all of them open have the role of each port."""
    from selenium.webdriver.common.keys import Keys

    members = 'return document.querySelectorAll("#network [data-bridge^=\'a3.\']").length;'
    box = "#network [data-fold='fold a3.0']"
    found = [browser.run(members)]
    browser.click(box)
    found.append(browser.run(members))
    expect.equal("box: in its place nothing lies on another", browser.run(LAID)["over"], 0)
    browser.run(f'document.querySelector("{box}").focus();')
    browser.driver.switch_to.active_element.send_keys(Keys.ENTER)
    found.append(browser.run(members))
    focus = browser.run("return document.activeElement.dataset.fold ?? null;")
    expect.equal("box: opens by a click, closes by Enter, keeps the focus", (found, focus), ([0, LARGE[1], 0], "fold a3.0"))
    browser.click("#boxes")
    with open(path, encoding="utf-8") as file:
        data = json.loads(re.search(r'<script id="data" type="application/json">(.*)</script>', file.read())[1])
    roles = sorted([port, told["role"]] for port, told in data["after"]["trees"]["0"]["ports"].items())
    expect.equal("boxes: all roles", sorted(browser.run(SIGNS)), roles)
    expect.equal("boxes: nothing lies on another", browser.run(LAID)["over"], 0)
    expect.equal("boxes: cables behind boxes", browser.run(HIDDEN), [])
    browser.click("#boxes")
    expect.equal("boxes: closed again", browser.run(members), 0)


def check_find(browser, expect):
    """What is typed finds switches, and Enter goes to the first; the sheet of switches goes by it as well."""
    from selenium.webdriver.common.by import By
    from selenium.webdriver.common.keys import Keys

    browser.click("#tabs [data-sheet='switches']")
    rows = 'return document.querySelectorAll("#sheet .row").length;'
    all_rows, field = browser.run(rows), browser.driver.find_element(By.ID, "find")
    field.send_keys("a7.1")
    wanted = len([place for place in range(LARGE[1]) if f"a7.{place}".startswith("a7.1")])
    expect.equal("find: rows of the sheet", (all_rows, browser.run(rows)), (2 + LARGE[0] * (2 + LARGE[1]), wanted))
    field.send_keys("2", Keys.ENTER)
    expect.equal("find: goes there", (browser.run(HEADING), browser.run(IN_SIGHT, "a7.12")), ("Switch a7.12", True))


def check_keyboard(browser, path, expect):
    """Tab reaches all that a click opens, and Enter opens it; Back leaves what was opened, and stays on the page."""
    from selenium.webdriver.common.by import By
    from selenium.webdriver.common.keys import Keys

    browser.open(path)
    expect.equal("keyboard: reached", browser.run(REACHED), dict.fromkeys(("switches", "cables", "ports", "rows", "links"), [True, 0]))
    browser.driver.find_element(By.ID, "find").send_keys(Keys.TAB * 2)
    expect.equal("keyboard: Tab goes on into the picture", browser.run("return Boolean(document.activeElement.closest('#network'));"), True)
    cases = [("#network [data-bridge='dist1']", "Switch dist1"), ("#network [data-port='acc1:2']", "Port acc1:2"), ("#panel [data-lan]", "LAN dist2-acc1")]
    for selector, heading in cases:
        browser.run(f'document.querySelector("{selector}").focus();')
        browser.driver.switch_to.active_element.send_keys(Keys.ENTER)
        expect.equal(f"keyboard: {selector}", browser.run(HEADING), heading)
    for heading in ("Port acc1:2", "Switch dist1", "Overview"):
        browser.driver.back()
        expect.equal("Back", (browser.run(HEADING), browser.driver.current_url.startswith("file:")), (heading, True))
    browser.run('document.querySelector("#sheet .row").focus();')
    browser.driver.switch_to.active_element.send_keys(Keys.ENTER)
    shown = browser.run(BANNER)
    browser.driver.back()
    expect.equal("Back leaves a failure", ("has failed" in (shown or ""), browser.run(BANNER)), (True, None))


def check_media(browser, path, expect):
    """In the dark the ground is dark; printed, upright and across, all sheets are there, and the picture is on the paper."""
    from selenium.webdriver.common.print_page_options import PrintOptions

    browser.open(path)
    ground = "return getComputedStyle(document.body).backgroundColor.match(/[0-9]+/g).slice(0, 3).every(it => it < 60);"
    found = []
    for scheme in ("light", "dark"):
        browser.driver.execute_cdp_cmd("Emulation.setEmulatedMedia", {"features": [{"name": "prefers-color-scheme", "value": scheme}]})
        found.append(browser.run(ground))
    expect.equal("dark by the system's setting", found, [False, True])
    browser.run('addEventListener("beforeprint", () => { window.printed = document.querySelectorAll("#print h2").length; });')
    tabs = browser.run('return document.querySelectorAll("#tabs button").length;')
    for across, (width, height) in ((False, (700, 1040)), (True, (1040, 700))):
        options = PrintOptions()
        options.orientation = "landscape" if across else "portrait"
        browser.run("window.printed = 0;")
        is_made = len(browser.driver.print_page(options)) > 10_000
        expect.equal(f"print {options.orientation}: sheets", (is_made, browser.run("return window.printed;")), (True, tabs))
        browser.driver.execute_cdp_cmd("Emulation.setEmulatedMedia", {"media": "print"})
        browser.driver.execute_cdp_cmd("Emulation.setDeviceMetricsOverride", {"width": width, "height": height, "deviceScaleFactor": 1, "mobile": False})
        box = browser.run('const it = document.getElementById("network").getBoundingClientRect(); return [it.left, it.right, it.width, it.height];')
        expect.equal(f"print {options.orientation}: picture", (box[0] >= 0, box[1] <= width, box[2] > 300, 150 < box[3] < height), (True,) * 4)
        browser.driver.execute_cdp_cmd("Emulation.clearDeviceMetricsOverride", {})
        browser.driver.execute_cdp_cmd("Emulation.setEmulatedMedia", {"media": ""})


def check_words(browser, names, pair, expect):
    """Names of 16 letters, labels, a network that is all RSTP; a cut where a tree is shown, and the banner's VLAN."""
    browser.open(names)
    laid = browser.run(LAID)
    expect.equal("names", [laid[it] for it in ("over", "wide", "labelsOver")] + [laid["labels"] > 2], [0, 0, 0, True])
    chips = browser.run('return document.getElementById("chips").innerText;')
    expect.equal("all RSTP", ("all RSTP, no MST region" in chips, re.search(r"\d region", chips)), (True, None))
    apart = 'return [...document.querySelectorAll("#network .node.apart")].map(it => it.dataset.bridge);'
    browser.open(pair, "fail=lan+dist1-acc2")
    expect.equal("a cut where a tree is shown", browser.run(apart), ["acc2"])
    browser.open(pair, "vlan=30")
    expect.equal("a VLAN that is all right", browser.run('return document.getElementById("banner").className;'), "well")
    browser.open(pair, "fail=bridge+core2")
    expect.equal("the overview after a failure", browser.run(HEADING), "Overview after switch core2 has failed")
    expect.equal("a new root, and whose", "new root of MST 2 for all 3 switches: core1, before core2" in browser.run(BANNER), True)
    for vid, told in ((10, "VLAN 10 isn't cut"), (1, "VLAN 1 is cut")):
        browser.open(pair, f"vlan={vid}&fail=lan+dist1-acc2")
        expect.equal(f"banner of VLAN {vid}", told in browser.run(BANNER), True)
    browser.click("#tabs [data-sheet='promises']")
    said = browser.run('return [...document.querySelectorAll("#sheet .said")].map(it => it.textContent);')
    expect.equal("promises in sentences", (len(said) > 0, [it for it in said if not is_sentence(it)]), (True, []))


def pair_script(count, number, with_names):
    """Two switches with so many below them, of which each has a link to both: a1, a2 and so on. Ports have such numbers, and names or none."""
    names = ["core1", "core2", *(f"a{place}" for place in range(1, count + 1))]
    lines = [line for place, name in enumerate(names, 1) for line in (f"addbridge {name} 02:00:00:00:00:{place:02x}", f"setmstconfid {name} 1 net")]
    lines += ["settreeprio core1 0 1", "settreeprio core2 0 2"]
    used = collections.Counter()
    for first, second in [("core1", "core2"), *((core, name) for name in names[2:] for core in names[:2])]:
        lines.append(f"addlan {first}-{second}")
        for name in (first, second):
            used[name] += 1
            port = number + used[name]
            lines += [f"addport {name} {port}", f"plug {name} {port} {first}-{second}"]
            lines += [f"# port {name} {port} is Te1/0/{port}" + (" of Po1" if second == "core2" else "")] * with_names
    return lines


def check_pairs(browser, program, folder, expect, made):
    """Three access switches on one pair, and more: nothing is hidden or cut, whatever ports are called, and a2 stands before a10."""
    for count, number, with_names in ((3, 0, False), (12, 1000, False), (3, 0, True), (20, 1000, True)):
        name = f"pair-{count}-{number}-{with_names}"
        browser.open(made(program, folder, name, expect, [written(folder, f"{name}.script", pair_script(count, number, with_names))]))
        laid = browser.run(LAID)
        expect.equal(f"{name}: hidden, and boxes over others", (browser.run(HIDDEN), laid["over"]), ([], 0))
        spots = browser.run("return [...picture.spots].filter(([name]) => name[0] === 'a').sort(([, a], [, b]) => a.y - b.y || a.x - b.x).map(([name]) => name);")
        expect.equal(f"{name}: order", spots, [f"a{place}" for place in range(1, count + 1)])
        texts = browser.run('return [..."12"].map(it => document.querySelector(`#network [data-port="core1:${Number(it) + arguments[0]}"] text`).textContent);', number)
        expect.equal(f"{name}: signs", texts, ["Po1", f"Te1/0/{number + 2}"] if with_names else [str(number + 1), str(number + 2)])
        frame = browser.run("const { width, height } = picture.svg.getBoundingClientRect(); return [width / sight.whole.width, height / sight.whole.height];")
        expect.equal(f"{name}: the picture fills the frame", max(frame) / min(frame) < 1.6, True)


def check_names(browser, program, folder, expect, made):
    """A port is called as the script of the network that is shown calls it, or else the other script or the change; a name is text."""
    lines = pair_script(1, 0, False)
    old = written(folder, "called.script", [*lines, "# port core1 1 is Te1/0/1", "# port core1 2 is <i>ge 2"])
    new = written(folder, "called-anew.script", [*lines, "# port core1 1 is Te1/0/7 of Po1"])
    change = written(folder, "called.change", ["# port core2 1 is xe-0", "settreeprio core2 0 3"])
    names = """return ["core1:1", "core1:2", "core2:1"].map(it => document.querySelector(`#network [data-port="${it}"] text`).textContent);"""
    browser.open(made(program, folder, "called-anew", expect, [new, "--old", old]))
    expect.equal("names: after", browser.run(names), ["Po1", "<i>ge 2", "1"])
    browser.click("#network [data-port='core1:2']")
    expect.equal("names: a port", browser.run(HEADING), "Port core1 <i>ge 2")
    browser.click("#times [data-net='before']")
    expect.equal("names: before", browser.run(names), ["Te1/0/1", "<i>ge 2", "1"])
    steps = made(program, folder, "called", expect, [old, "--change", change])
    for address in ("", "step=1"):
        browser.open(steps, address)
        expect.equal(f"names of a change: {address}", browser.run(names), ["Te1/0/1", "<i>ge 2", "xe-0"])


def check_path(browser, path, expect):
    """A path that is typed is drawn, by its address as well, and after a failure the new one."""
    browser.open(path)
    for field, bridge in (("from", "acc1"), ("to", "core1")):
        browser.run("const box = document.getElementById(arguments[0]); box.value = arguments[1]; box.dispatchEvent(new Event('input'));", field, bridge)
    drawn = "return [...document.querySelectorAll('#network .cable.' + arguments[0])].map(it => it.dataset.lan).sort();"
    expect.equal("path: without a VLAN that of the first", (browser.run(HEADING), browser.run(drawn, "path")), ("Path of VLAN 1", ["core1-dist1", "dist1-acc1"]))
    browser.open(path, "vlan=30&from=acc1&to=core1")
    expect.equal("path: by its address", browser.run(drawn, "path"), ["c1-c2.a", "core2-dist1", "dist1-acc1"])
    browser.click("#panel .row[data-fail='lan core2-dist1']")
    expect.equal("path: after a failure", [browser.run(drawn, kind) for kind in ("path", "was")], [["core1-dist1", "dist1-acc1"], ["c1-c2.a", "core2-dist1"]])
    banner = browser.run(BANNER)
    expect.equal("path: in the banner", ("acc1 → dist1 → core1" in banner, "before it: acc1 → dist1 → core2 → core1" in banner), (True, True))
    browser.click("#banner [data-clear='path']")
    expect.equal("path: none", (browser.run(drawn, "path"), "has failed" in browser.run(BANNER)), ([], True))


def check_phone(browser, path, expect):
    """On a phone the overview stands above the picture, and what is selected over the page, which is no broader than the screen."""
    browser.driver.execute_cdp_cmd("Emulation.setDeviceMetricsOverride", {"width": 390, "height": 844, "deviceScaleFactor": 1, "mobile": True})
    browser.open(path)
    top = "return document.getElementById(arguments[0]).getBoundingClientRect().top;"
    expect.equal("phone: overview first", browser.run(top, "panel") < browser.run(top, "network"), True)
    browser.click("#network [data-bridge='dist1']")
    detail = 'const it = document.getElementById("detail"); return [it.hidden, it.querySelector("h2")?.textContent ?? null];'
    expect.equal("phone: a switch", (browser.run(detail), browser.run(HEADING)), ([False, "Switch dist1"], "Overview"))
    browser.click("#detail [data-close]")
    expect.equal("phone: closed", browser.run(detail), [True, None])
    expect.equal("phone: two fingers make it larger", browser.run(PINCH), [True, "none"])
    expect.equal("phone: as broad as the screen", browser.run("return document.documentElement.scrollWidth;"), 390)
    browser.driver.execute_cdp_cmd("Emulation.clearDeviceMetricsOverride", {})


def is_sentence(text):
    return text[:1].isalnum() and text.endswith(".") and " " in text


def check_views(browser, program, folder, expect, made):
    """All of these. `made` makes a page."""
    samples = os.path.join(TOP, "examples")
    old, new, policy = (os.path.join(samples, name) for name in ("campus.script", "campus-changed.script", "campus.policy"))
    check_places(expect)
    check_large(browser, program, folder, expect)
    campus_page = made(program, folder, "views", expect, [old])
    check_keyboard(browser, campus_page, expect)
    check_media(browser, campus_page, expect)
    check_path(browser, campus_page, expect)
    check_phone(browser, campus_page, expect)
    check_pairs(browser, program, folder, expect, made)
    check_names(browser, program, folder, expect, made)
    names = made(program, folder, "names", expect, [written(folder, "names.script", names_script())])
    check_words(browser, names, made(program, folder, "cut", expect, [new, "--old", old, "--policy", policy]), expect)
    return 10
