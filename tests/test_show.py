"""The page of a lock: what it says of markers and machines, and, in a real browser where there is one, that it is
searched, that each machine has its versions, and that no text of a lock becomes markup."""

from __future__ import annotations

import json
import re
import unittest

from browser import Browser, browser_path
from making import TOP, Folder, skip
from unilock_tools import locks, show

WEB_APP = TOP / "examples" / "web_app" / "unilock.lock"
DIGEST = "0" * 64


def lock_of(packages: dict[str, list[str]], files: str = "") -> str:
    """A lock of packages at version 1 whose edges lead to the names listed."""
    blocks = ['version = 2\nroot = "demo"\n']
    for name, needed in packages.items():
        block = f'\n[[package]]\nname = "{name}"\nversion = "1"\n'
        if files and name != "demo":
            block += f'files = [\n    {{ file = "{files}", hash = "sha256:{DIGEST}" }},\n]\n'
        if needed:
            lines = "".join(f'    {{ name = "{it}", version = "1" }},\n' for it in needed)
            block += f"dependencies = [\n{lines}]\n"
        blocks.append(block)
    return "".join(blocks)


class Words(unittest.TestCase):
    def test_markers_in_words(self) -> None:
        for text, words in [
            ("", ""),
            ("sys_platform == 'win32'", "on Windows"),
            ("sys_platform != 'linux' and python_full_version >= '3.11.0'", "not on Linux, Python 3.11 and later"),
            ("python_full_version < '3.9.1' or os_name == 'nt'", "Python before 3.9.1, or on Windows"),
            ("'arm' in platform_machine", "'arm' in platform_machine"),
            ("platform_release == '5'", "platform_release == '5'"),
            ("no marker", "no marker"),
        ]:
            self.assertEqual(show.where(text), words)

    def test_what_each_machine_gets(self) -> None:
        lock = locks.load(str(WEB_APP))
        machines = {it["machine"]: it["versions"] for it in show.machines_told(lock)}
        self.assertEqual(machines["Linux, Python 3.10"]["numpy"], "1.26.4")
        self.assertEqual(machines["Windows, Python 3.12"]["numpy"], "2.1.0")
        self.assertIn("colorama", machines["Windows, Python 3.12"])
        self.assertNotIn("colorama", machines["Linux, Python 3.12"])
        self.assertNotIn("web-app", machines["Linux, Python 3.12"])

    def test_a_machine_that_a_lock_is_not_made_for_is_left_out(self) -> None:
        text = WEB_APP.read_text(encoding="utf-8")
        text = text.replace("python_full_version >= '3.9.0'", "sys_platform == 'linux'", 1)
        machines = show.machines_told(locks.read(text, "lock"))
        self.assertEqual({it["machine"].partition(",")[0] for it in machines}, {"Linux"})

    def test_machines_with_the_same_versions_share_them(self) -> None:
        found = show.shared(show.machines_told(locks.load(str(WEB_APP))))
        at = {it["machine"]: found["selections"][it["selection"]] for it in found["machines"]}
        self.assertEqual(at, {it["machine"]: it["versions"] for it in show.machines_told(locks.load(str(WEB_APP)))})
        self.assertEqual((len(found["machines"]), len(found["selections"])), (15, 4))

    def test_why_a_package_is_there(self) -> None:
        before = show.ways_from_root(locks.read(lock_of({"demo": ["a"], "a": ["b"], "b": ["c"], "c": []}), "lock"))
        self.assertEqual(before, {("demo", "1"): "", ("a", "1"): "demo 1", ("b", "1"): "a 1", ("c", "1"): "b 1"})

    def test_nothing_of_the_data_ends_the_script(self) -> None:
        text = show.embedded({"a": "</script><b>&amp;"})
        self.assertIsNone(re.search("[<>&]", text))
        self.assertEqual(json.loads(text), {"a": "</script><b>&amp;"})

    def test_a_refusal(self) -> None:
        text = "no selection serves this fork\nfork: 0\nregion: sys_platform == 'win32'\nworld: x\ncore: 1\n"
        text += "q 1 needs z {}\n"
        told = show.refusal_told(text)
        self.assertEqual((told["region"], told["needs"]), ("on Windows", [["q 1", "z {}"]]))


class Streams(Folder):
    def test_a_page_on_standard_output(self) -> None:
        done = self.ran("show", WEB_APP, "-o", "-")
        self.assertTrue(done.stdout.startswith("<!DOCTYPE html>"))
        self.assertEqual((done.stderr, list(self.top.iterdir())), ("", []))


class Pages(Folder):
    """The page in a browser."""

    def setUp(self) -> None:
        super().setUp()
        path = browser_path()
        if path is None:
            skip(self, "there is no Chromium")
        self.browser = Browser(path or "")
        self.addCleanup(self.browser.close)

    def shown(self, lock: object, *words: object) -> Browser:
        self.ran("show", lock, *words, "-o", "page.html")
        self.browser.open((self.top / "page.html").as_uri())
        self.browser.wait_for("document.querySelector('.list button') !== null")
        return self.browser

    def rows(self) -> list[str]:
        script = "[...document.querySelectorAll('.list button')].map((it) => it.textContent)"
        found: list[str] = self.browser.value(script)
        return found

    def text(self, of: str = "#view") -> str:
        found: str = self.browser.value(f"document.querySelector({json.dumps(of)}).innerText")
        return found

    def test_search_as_one_types(self) -> None:
        page = self.shown(WEB_APP)
        self.assertEqual(len(self.rows()), 10)
        page.key("/")
        for letter in "num":
            page.key(letter, letter)
        self.assertEqual(self.rows(), ["numpy1.26.4", "numpy2.1.0"])

    def test_a_package_says_why_and_where(self) -> None:
        page = self.shown(WEB_APP)
        buttons = "[...document.querySelectorAll('.list button')]"
        page.value(f"{buttons}.find((it) => it.textContent.startsWith('colorama')).click()")
        self.assertIn("Why it is there: web-app 1.2.0 → colorama 0.4.6", self.text())
        self.assertIn("on Windows", self.text())
        self.assertEqual(page.value("document.querySelectorAll('svg .here').length"), 1)
        page.key("ArrowDown")
        self.assertIn("fastapi 0.110.0", self.text("section h2"))

    def test_a_column_for_each_machine(self) -> None:
        page = self.shown(WEB_APP)
        page.value("document.getElementById('tab-machines').click()")
        heads = page.value("[...document.querySelectorAll('thead th')].map((it) => it.textContent)")
        cells = page.value(
            "[...[...document.querySelectorAll('tbody tr')].find((it) => it.textContent.startsWith('colorama')).cells]"
            ".map((it) => it.textContent)"
        )
        at = dict(zip(heads, cells))
        self.assertEqual(at["Windows, Python 3.12"], "0.4.6")
        self.assertEqual(at["Linux, Python 3.12"], "")

    def test_what_changes(self) -> None:
        other = WEB_APP.read_text(encoding="utf-8").replace('"8.1.1"', '"8.1.2"')
        page = self.shown(WEB_APP, self.write("other.lock", other))
        page.value("document.getElementById('tab-changes').click()")
        self.assertIn("pytest 8.1.1 -> 8.1.2", self.text())

    def test_markers_that_change(self) -> None:
        other = WEB_APP.read_text(encoding="utf-8").replace("sys_platform == 'win32'", "os_name == 'nt'")
        page = self.shown(WEB_APP, self.write("other.lock", other))
        page.value("document.getElementById('tab-changes').click()")
        moved = "where os_name == 'nt', no longer where sys_platform == 'win32'"
        self.assertIn(f"needs colorama 0.4.6 {moved}", self.text())

    def test_the_graph_of_a_small_lock(self) -> None:
        page = self.shown(WEB_APP)
        page.value("document.getElementById('tab-graph').click()")
        places = page.value(
            "Object.fromEntries([...document.querySelectorAll('svg g')].map((it) =>"
            " [it.getAttribute('aria-label'), Number(it.querySelector('rect').getAttribute('x'))]))"
        )
        self.assertEqual(len(places), 10)
        # What a package needs stands to the right of it.
        self.assertLess(places["web-app 1.2.0"], places["fastapi 0.110.0"])
        self.assertLess(places["pytest 8.1.1"], places["colorama 0.4.6"])
        self.assertEqual(page.value("document.querySelectorAll('svg path').length"), 11)

    def test_a_graph_with_a_cycle(self) -> None:
        page = self.shown(self.write("cycle.lock", lock_of({"a": ["b"], "b": ["a"], "demo": ["a", "b"]})))
        page.value("document.getElementById('tab-graph').click()")
        self.assertEqual(page.value("document.querySelectorAll('svg g').length"), 3)
        self.assertEqual(page.value("document.querySelectorAll('svg path').length"), 4)

    def test_what_is_handed_in(self) -> None:
        refusal = "no selection serves this fork\nfork: 0\nregion: sys_platform == 'win32'\nworld: x\ncore: 1\n"
        words = ["--refusal", self.write("refusal", refusal + "q 1 needs <b>z</b> {}\n")]
        words += ["--outdated", self.write("outdated", '{"packages": [{"name": "a<i>", "newest": "2"}]}')]
        words += ["--coverage", self.write("coverage", '{"rows": [{"package": "a", "musl": "nothing"}]}')]
        page = self.shown(WEB_APP, *words)
        for tab, text in [("refusal", "q 1\nneeds\n<b>z</b> {}"), ("outdated", "a<i>"), ("coverage", "nothing")]:
            page.value(f"document.getElementById('tab-{tab}').click()")
            self.assertIn(text, self.text())
        self.assertEqual(page.value("document.querySelectorAll('#page b, #page i').length"), 0)

    def test_no_text_of_a_lock_becomes_markup(self) -> None:
        hostile = "<script>window.broken=1</script><img src=x onerror=window.broken=2>.whl"
        page = self.shown(self.write("hostile.lock", lock_of({"a": [], "demo": ["a"]}, hostile)))
        page.value("[...document.querySelectorAll('.list button')][0].click()")
        self.assertIn(hostile, self.text())
        self.assertIsNone(page.value("window.broken === undefined ? null : window.broken"))
        self.assertEqual(page.value("document.querySelectorAll('#page img, #page script').length"), 0)

    def test_two_thousand_packages(self) -> None:
        names = [f"package-{number:04}" for number in range(2000)]
        packages = {name: names[at + 1 : at + 6] for at, name in enumerate(names)}
        text = lock_of({"demo": names[:50], **packages})
        page = self.shown(self.write("large.lock", text))
        self.assertEqual(len(self.rows()), 2001)
        took = "(() => { const begun = performance.now(); show('packages'); return performance.now() - begun; })()"
        self.assertLess(page.value(took), 5000, "some 50 milliseconds where nothing else runs")
        painted = "performance.getEntriesByName('first-contentful-paint')"
        page.wait_for(f"{painted}.length > 0")
        # The whole process of the page, from its start; where nothing else runs the clock shows little more.
        self.assertLess(page.processor_time(), 3, "some half a second where nothing else runs")
        self.assertEqual(page.value("document.getElementById('tab-graph')"), None)

    def test_narrow_and_dark(self) -> None:
        self.browser.width(400)
        page = self.shown(WEB_APP)
        self.assertLessEqual(page.value("document.documentElement.scrollWidth"), 400)
        # The picture isn't made smaller: its letters are as large as those of a wide page.
        self.assertGreaterEqual(page.value("document.querySelector('svg text').getBoundingClientRect().height"), 12)
        page.call("Emulation.setEmulatedMedia", features=[{"name": "prefers-color-scheme", "value": "dark"}])
        self.assertEqual(page.value("getComputedStyle(document.body).backgroundColor"), "rgb(20, 23, 26)")
        self.assertTrue(page.picture().startswith(b"\x89PNG"))


    def test_on_paper_all_packages_stand(self) -> None:
        page = self.shown(WEB_APP)
        page.call("Emulation.setEmulatedMedia", media="print")
        page.value("dispatchEvent(new Event('beforeprint'))")
        text = self.text(".paper")
        for line in ["colorama 0.4.6\t\tweb-app 1.2.0", "colorama 0.4.6 (on Windows); iniconfig 2.0.0"]:
            self.assertIn(line, text)
        self.assertEqual(page.value("getComputedStyle(document.querySelector('.columns')).display"), "none")
        page.value("dispatchEvent(new Event('afterprint'))")
        self.assertEqual(page.value("document.querySelector('.paper').children.length"), 0)
        self.assertTrue(page.call("Page.printToPDF", printBackground=True)["data"].startswith("JVBER"))


if __name__ == "__main__":
    unittest.main()
