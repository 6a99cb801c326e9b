"""The page of bin/ringview in a real browser: python3 -m unittest discover -s tests/browser

Headless Chromium loads the page, drives it by keys and buttons, and answers what it shows. Skipped where no browser is
installed. Set RING_SHOTS to a folder to keep pictures to look at.
"""
import json
import os
import re
import shutil
import subprocess
import sys
import tempfile
import unittest

HERE = os.path.dirname(os.path.abspath(__file__))
ROOT = os.path.dirname(os.path.dirname(HERE))
sys.path.insert(0, os.path.join(ROOT, "tests"))
import make_vectors  # noqa: E402

BROWSER = next(filter(None, map(shutil.which, ("chromium", "chromium-browser", "google-chrome", "chrome"))), None)

# Files of each size, with every kind of stuck part, two parts stuck beside each other, a clash, generators that return, and generators that
# are locked, also where they are stuck off.
FILES = {
    3: "ring 3\nBB1 stuck closed\nBB2 stuck open\nG1 stuck off\nG2 stuck off\nG3 stuck off\nG2 fit\nG1 fit\nG1 locked\nG2 locked\n"
       "G2 stuck off\nG2 unlocked\nG2 fit\nG1 unlocked\n",
    5: "ring 5\nBB2 stuck open\nBB4 stuck open\nG1 stuck off\nGB2 stuck closed\nBB1 stuck closed\nG1 locked\nG2 locked\nG1 fit\nG1 unlocked\n",
    20: "ring 20\nBB1 stuck closed\nGB11 stuck closed\nGB12 stuck closed\nBB10 stuck closed\nBB12 stuck closed\nBB20 stuck open\n"
        "G2 stuck off\nBB5 stuck open\nGB1 stuck open\nG11 stuck off\nG12 stuck off\nG11 locked\nG12 locked\nG13 locked\nG3 locked\n"
        "G10 locked\nG11 fit\n",
}

# Runs in the page: goes through all moments by a key, notes what stands on the screen, and whether texts overlap or are small.
PROBE = """
<script>
const seen = [], faults = [];
function place(t) {
  const range = document.createRange();
  range.selectNodeContents(t);
  return (t.closest("svg") ? t : range).getBoundingClientRect();
}
function texts() {
  const all = [...document.querySelectorAll("svg#ring text, #report, #moment, #clash, #words b, .stroke")];
  return all.filter(t => t.textContent.trim() && getComputedStyle(t).display != "none" && place(t).width);
}
function overlaps() {
  const boxes = texts().map(t => [t, place(t)]);
  boxes.forEach(([t, a], i) => boxes.slice(i + 1).forEach(([u, b]) => {
    const x = Math.min(a.right, b.right) - Math.max(a.left, b.left), y = Math.min(a.bottom, b.bottom) - Math.max(a.top, b.top);
    if (x > 1.5 && y > 3.5) faults.push(location.hash + ": " + t.textContent + " on " + u.textContent);
  }));
}
// What stands at a generator: how it is stuck, whether it is locked, the cross, the padlock, and whether it is drawn running.
function machine(g) {
  const part = byId("G" + g), words = [...part.querySelectorAll(".tag")].map(t => t.textContent).filter(word => word).join(" ");
  const crossed = part.querySelector(".cross").getAttribute("visibility") == "visible";
  const padlocked = getComputedStyle(part.querySelector(".padlock")).display != "none";
  const runs = part.querySelector(".core").getAttribute("fill") != "none";
  return [words, crossed ? "cross" : "", padlocked ? "padlock" : "", runs ? "runs" : ""].join("/");
}
function look() {
  const numbers = Array.from({length: n}, (_, i) => i + 1);
  const buses = numbers.map(k => document.querySelector("#B" + k + " .source").textContent);
  seen.push({at: location.hash.slice(1), buses, machines: numbers.map(machine)});
  overlaps();
}
function press(key) { document.dispatchEvent(new KeyboardEvent("keydown", {key, cancelable: true})); }
look();
for (let i = 0; i < 500 && !byId("stroke-on").disabled; i++) { press("ArrowRight"); look(); }
const end = location.hash, went = {};
press("Home"); went.home = location.hash;
press("ArrowDown"); went.down = location.hash;
byId("stroke-on").click(); went.click = location.hash;
press("PageUp"); went.up = location.hash;
byId("report-on").click(); went.report = location.hash;
press("ArrowUp"); went.back = location.hash;
press("End"); went.end = location.hash;
// the smallest letters of the picture, where it is as wide as a projector's 1280
const small = Math.min(...texts().map(t => parseFloat(getComputedStyle(t).fontSize) * 1280 / (t.closest("svg") ? 1440 : byId("ring").getBoundingClientRect().width)));
const fits = byId("ring").getBoundingClientRect().bottom <= window.innerHeight && document.documentElement.scrollWidth <= window.innerWidth;
const told = document.createElement("pre");
told.id = "told";
told.textContent = JSON.stringify({seen, faults, went, end, small, fits, height: window.innerHeight});
document.body.appendChild(told);
</script>
"""


def expected_moments(data):
    """What the page must show at each moment, by the simulation."""
    moments, call, stroke = [], -1, 0
    n, off, locked, on = data[0], set(), set(), set()
    for line in make_vectors.trace_text(data).splitlines()[1:]:
        first, *buses = line.split(" ")
        call, stroke = (int(first), 0) if first.isdigit() else (call, stroke + 1)
        if stroke:
            (on.add if first[-1] == "+" else on.discard)(first[:-1])
        elif call:
            code, word = data[2 + call], data[2 + (len(data) - 3) // 2 + call]
            if code < 20:
                told = locked if word in (4, 5) else off
                (told.add if word in (1, 4) else told.discard)("G%d" % (code + 1))
        words = [bus.split("=")[1] for bus in buses]
        moments.append({"at": "%d.%d" % (call, stroke), "buses": ["dark" if w == "-" else w.replace("!", " ") for w in words],
                        "machines": [machine_words("G%d" % k, off, locked, on) for k in range(1, n + 1)]})
    return moments


def machine_words(name, off, locked, on):
    """What must stand at a generator: how it is stuck, whether it is locked, the cross, the padlock, and whether it is drawn running."""
    words = " ".join((["stuck", "off"] if name in off else []) + (["locked"] if name in locked else []))
    running = name in on and name not in off and name not in locked
    return "/".join([words, "cross" if name in off else "", "padlock" if name in locked else "", "runs" if running else ""])


@unittest.skipUnless(BROWSER, "no browser is installed")
class Page(unittest.TestCase):

    def browse(self, page, *options):
        with tempfile.TemporaryDirectory() as profile:
            return subprocess.run([BROWSER, "--headless", "--no-sandbox", "--disable-gpu", "--hide-scrollbars", "--window-size=1280,720",
                                   "--user-data-dir=" + profile, *options, "file://" + page],
                                  stdin=subprocess.DEVNULL, stdout=subprocess.PIPE, stderr=subprocess.DEVNULL, timeout=120).stdout.decode()

    def view(self, size, folder):
        """The page of a file, and the fault file."""
        lines = os.path.join(folder, "lines.txt")
        with open(lines, "w") as out:
            out.write(FILES[size])
        tool = lambda *words: subprocess.run([os.path.join(ROOT, "bin", words[0]), *words[1:], lines], check=True,
                                             stdout=subprocess.PIPE).stdout
        page = os.path.join(folder, "ring.html")
        text = tool("ringview")
        with open(page, "wb") as out:
            out.write(text)
        with open(os.path.join(folder, "probed.html"), "wb") as out:
            out.write(text.replace(b"</body>", PROBE.encode() + b"</body>"))
        return page, tool("faultfile", "encode")

    def check(self, size):
        with tempfile.TemporaryDirectory() as folder:
            page, data = self.view(size, folder)
            dump = self.browse(os.path.join(folder, "probed.html"), "--dump-dom")
            told = re.search(r'<pre id="told">(.*?)</pre>', dump, re.S)
            self.assertTrue(told, "the page did not run")
            told = json.loads(told.group(1).replace("&amp;", "&").replace("&lt;", "<").replace("&gt;", ">"))
            self.assertEqual(told["seen"], expected_moments(data))
            self.assertEqual(told["faults"][:20], [])
            self.assertEqual(told["went"], {"home": "#0.0", "down": "#1.0", "click": "#1.1", "up": "#1.0", "report": "#2.0",
                                            "back": "#1.0", "end": told["end"]})
            self.assertGreaterEqual(told["small"], 12)
            self.assertTrue(told["fits"], "the ring does not fit a window of 1280 x %d" % told["height"])
            if os.environ.get("RING_SHOTS"):
                self.browse(page + "#1.0", "--screenshot=" + os.path.join(os.environ["RING_SHOTS"], "ring%d.png" % size))

    def test_ring_of_3(self):
        self.check(3)

    def test_ring_of_5(self):
        self.check(5)

    def test_ring_of_20(self):
        self.check(20)

    def test_prints_on_paper(self):
        with tempfile.TemporaryDirectory() as folder:
            page, _ = self.view(20, folder)
            paper = os.path.join(folder, "ring.pdf")
            self.browse(page, "--print-to-pdf=" + paper)
            with open(paper, "rb") as printed:
                self.assertTrue(printed.read(5).startswith(b"%PDF"))


if __name__ == "__main__":
    unittest.main()
