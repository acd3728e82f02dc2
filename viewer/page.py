"""What try.py checks of a page in the browser."""
import itertools
import json
import subprocess
from pathlib import Path

SIZES = [(1400, 900), (800, 900), (400, 800)]
# What a page shows: its step, its sentence, a text that would be a fault, and the state reached.
SHOWN = (Path(__file__).resolve().parent / "state_text.mjs").read_text().replace("export ", "") + """
[+document.getElementById('step').value, document.getElementById('says').textContent,
 /undefined|NaN|null|\\[object/.exec(document.querySelector('main').textContent)?.[0],
 stateText({layout, head, memory, pageblocksOf, wordsOf, zoneLists, cpuLists})]"""
HIDDEN = ("/[\\u0000-\\u0009\\u000b-\\u001f\\u007f-\\u009f\\u00ad\\u061c\\u200b-\\u200f"
          "\\u2028-\\u202f\\u2060-\\u206f\\ufeff]/")
TIMES = """(async () => { const times = [];
    const press = key => document.dispatchEvent(new KeyboardEvent('keydown', {key, bubbles: true}));
    for (let n = 0; n < STEPS; n++) {
      await new Promise(requestAnimationFrame); const from = performance.now();
      press(+document.getElementById('step').value ? 'ArrowLeft' : 'End');
      document.body.offsetHeight; times.push(performance.now() - from);
    } return times.sort((a, b) => a - b); })()"""
DRAWN = """new Promise(done => { const wait = () => current < 0 ? setTimeout(wait, 10) : done();
    wait(); })"""
# A longer trace is not walked step by step.
WALKED = 400
SOME = 40
# Milliseconds that a step may take, on pages of at most so many frames and on larger ones.
SMALL, QUICK, SLOW = 1000, 20, 60
# Walks of some steps, at most, of which the fastest is the page's.
WALKS = 8


def state_after(hotplug, scenario, lines):
    """The state that `hotplug serial` prints after this many lines."""
    part = {"layout": scenario["layout"], "calls": scenario["calls"][:lines]}
    run = subprocess.run([hotplug, "serial"], input=json.dumps(part).encode(),
                         stdout=subprocess.PIPE, check=True)
    return run.stdout.decode().rpartition("state\nblock 0 ")[2]


def joined(rows):
    """The rows, each `output` in the row above it."""
    steps = []
    for row in rows:
        if "output" in row:
            steps[-1]["output"] = steps[-1].get("output", "") + row["output"]
        else:
            steps.append(row)
    return steps


class Page:
    """A page in the browser, and its checks."""

    def __init__(self, browser, checks, path, scenario, hotplug):
        self.browser, self.checks, self.path, self.name = browser, checks, path, path.stem
        self.scenario, self.hotplug, self.states = scenario, hotplug, {}
        self.open("?1#step=3")
        head, *rows = map(json.loads, browser.text("#trace").split("\n")[:-1])
        self.layout, self.rows = head["layout"], joined(rows)
        self.last = len(self.rows) - 1

    def run(self):
        for part in (self.links, self.keys, self.buttons, self.follow, self.rove, self.walk,
                     self.quiet, self.harm, self.labels, self.speed):
            part()

    def open(self, place):
        """Opens the page at a place, and waits until it is drawn."""
        self.browser.open(self.path.as_uri() + place)
        self.browser.value(DRAWN)

    def holds(self, what, is_right):
        self.checks.holds(self.name, is_right, what)

    def step(self):
        return self.browser.value("+document.getElementById('step').value")

    def at(self, what, step):
        self.holds(f"{what} leads to step {self.step()}, not {step}", self.step() == step)

    def address(self, hash_):
        """Follows a link within the page."""
        self.browser.value(f"history.replaceState(null, '', '#'); location.hash = '{hash_}';"
                           " new Promise(done => setTimeout(done, 50))")

    def go(self, step):
        self.address(f"#step={step}")

    # The ways from step to step

    def links(self):
        browser, last = self.browser, self.last
        self.at("a link", min(3, last))
        self.open(f"?2#step={last}")
        self.at("a link", last)
        self.holds("the line of a link is out of sight", browser.value("""(() => {
            const [line, list] = ['[aria-selected=true]', '#lines'].map(it => document.querySelector(it)
              .getBoundingClientRect());
            return line.top >= list.top - 1 && line.bottom <= list.bottom + 1; })()"""))
        self.go(2)
        self.at("an address", 2)
        line = self.rows[last]["line"]
        self.address(f"#line={line}")
        self.at("a line's address", [row["line"] for row in self.rows].index(line))

    def keys(self):
        browser, last = self.browser, self.last
        for key, step in (("Home", 0), ("ArrowLeft", 0), ("ArrowRight", 1)):
            browser.press(key)
            self.at(key, step)
        browser.value("new Promise(done => setTimeout(done, 300))")
        self.holds("the address lags behind", browser.value("location.hash") == "#step=1")
        for key, step in (("End", last), ("ArrowRight", last)):
            browser.press(key)
            self.at(key, step)

    def buttons(self):
        browser, last = self.browser, self.last
        self.go(0)
        browser.click("#row2")
        self.at("a click on a line", 2)
        browser.value("document.getElementById('pace').value = 2400")
        for way, step in (("next", 3), ("back", 2), ("last", last), ("first", 0), ("play", 1)):
            browser.click(f"[data-go={way}]")
            self.at(f"the button {way}", step)
        self.holds("a page that plays offers no pause", browser.value(
            "document.querySelector('[data-go=play]').ariaLabel") == "Pause")
        browser.click("[data-go=play]")
        browser.value("document.getElementById('lines').focus()")
        step = self.step()
        browser.press("ArrowDown")
        self.at("down in the lines", step + 1)

    # Frames

    def follow(self):
        """A frame is told of, followed and let go, by the pointer."""
        browser, machine = self.browser, "#machine .piece"
        self.go(self.last)
        if not browser.value(f"document.querySelectorAll('{machine}').length"):
            browser.click("#tiles button")
        browser.point(machine)
        self.holds("no tip at the pointer", "Touched by" in browser.text("#tip")
                   and not browser.value("document.getElementById('tip').hidden"))
        browser.click(machine)
        self.holds("a click follows no frame", "Place" in browser.text("#frame"))
        browser.press("ArrowLeft")
        self.at("left after a click", self.last - 1)
        self.holds("a frame is let go by a step", "Place" in browser.text("#frame"))
        browser.press("Escape")
        self.holds("Escape lets no frame go", "Place" not in browser.text("#frame"))

    def rove(self):
        """The same by keys."""
        browser = self.browser
        browser.value("document.querySelector('#machine [tabindex=\"0\"]').focus()")
        following = browser.value("""(() => { const all = [...document.querySelectorAll('#machine .piece')];
            return (all[all.indexOf(document.activeElement) + 1] ?? all.at(-1)).dataset.frame; })()""")
        browser.press("ArrowRight")
        self.at("right in the memory", self.last - 1)
        self.holds("arrows do not lead from frame to frame",
                   browser.value("document.activeElement.dataset.frame") == following)
        browser.press("Enter")
        self.holds("Enter follows no frame", "Touched by" in browser.text("#frame"))
        step = browser.value("document.querySelector('#frame [data-row]').dataset.row")
        browser.click("#frame [data-row]")
        self.at("a step of a story", int(step))
        self.holds("no list has one stop of the Tab key", browser.value(
            "[...document.querySelectorAll('[data-roving]:has(button)')].every(it =>"
            " it.querySelectorAll('[tabindex=\"0\"]').length === 1)"))
        browser.press("Escape")

    # Steps

    def walk(self):
        """Each step, to the end by keys and back, of a long trace only some, by address."""
        is_long = self.last >= WALKED
        steps = range(0, self.last + 1, self.last // SOME if is_long else 1)
        self.browser.press("Home")
        self.browser.value("document.activeElement.blur()")
        for ways, key in ((list(steps), "ArrowRight"), (list(steps)[::-1], "ArrowLeft")):
            for at, step in enumerate(ways):
                if is_long:
                    self.go(step)
                elif at > 0:
                    self.browser.press(key)
                self.shows(step)

    def shows(self, step):
        at, says, fault, state = self.browser.value(SHOWN)
        self.holds(f"a walk leads to step {at}, not {step}", at == step)
        self.holds(f"step {step} says nothing", says)
        self.holds(f"step {step} has the text {fault}", not fault)
        line = self.rows[step]["line"]
        if step < self.last and self.rows[step + 1]["line"] == line:
            return
        if line not in self.states:
            self.states[line] = state_after(self.hotplug, self.scenario, line)
        self.holds(f"step {step} has another state",
                   state.removeprefix("block 0 ") == self.states[line])

    # What must not be

    def quiet(self):
        browser = self.browser
        self.holds("lines out of sight are in the page", browser.value(
            "document.getElementById('lines').childElementCount < 200"))
        self.holds(f"the console has {browser.faults()[:1]}", not browser.faults())
        self.holds(f"requests {browser.requests()}",
                   all(it.startswith(self.path.as_uri()) for it in browser.requests()))

    def harm(self):
        browser = self.browser
        self.holds("markup came from the data", browser.value(
            "document.scripts.length === 2 && document.images.length === 0"
            " && document.title === 'Memory hotplug trace' && window.ran === undefined"))
        self.holds("a hidden character is shown", browser.value(
            f"!{HIDDEN}.test(document.querySelector('main').textContent + "
            "[...document.querySelectorAll('[title]')].map(it => it.title).join(''))"))
        self.holds("another script runs", browser.value("""(() => {
            const script = document.createElement('script'); script.textContent = 'window.ran = 1';
            document.head.append(script); script.remove(); return window.ran === undefined; })()"""))
        browser.events.clear()                      # the console has that refusal

    def labels(self):
        self.holds("a button has no name", self.browser.value(
            "[...document.querySelectorAll('button, input, select, [role=img], [role=group]')]"
            ".every(it => it.ariaLabel || it.textContent.trim() || it.labels?.length"
            " || it.dataset.roving)"))

    def speed(self):
        """Walks back a few steps, again where a busy machine made that slow; the fastest walk counts."""
        self.go(self.last)
        frames = self.layout["blocks"] * self.layout["pageblocks"] << self.layout["order"]
        most, walks = QUICK if frames <= SMALL else SLOW, []
        self.browser.ask("Performance.enable", timeDomain="threadTicks")
        while len(walks) < WALKS and min(walks, default=(most,))[0] >= most:
            walks.append(self.timed())
        best, step, slow = min(walks)
        print(f"{self.name}: {self.last} steps; {step:.1f} ms a step, {slow:.1f} a slow one;"
              f" {best:.1f} at best")
        self.holds(f"a step takes {best:.1f} ms", best < most)

    def timed(self):
        """The milliseconds that a step took, by the clock or of processor, and by the clock those
        of a usual and of a slow step."""
        steps, before = 20, self.used()
        times = self.browser.value(TIMES.replace("STEPS", str(steps)))
        used = (self.used() - before) * 1000 / steps
        return min(used, times[steps // 2]), times[steps // 2], times[-2]

    def used(self):
        """The seconds of processor that the page took so far."""
        names = ("ScriptDuration", "LayoutDuration", "RecalcStyleDuration")
        metrics = self.browser.ask("Performance.getMetrics")["metrics"]
        return sum(it["value"] for it in metrics if it["name"] in names)

    def shoot(self, folder):
        self.browser.ask("Page.bringToFront")
        self.go(self.last * 2 // 3)
        for (width, height), scheme in itertools.product(SIZES, ("light", "dark")):
            path = folder / f"{self.name}-{width}-{scheme}.png"
            self.browser.shoot(path, width, height, scheme)
        self.browser.ask("Emulation.clearDeviceMetricsOverride")
