"""The pages in a browser: they open without an error, and what can be done with them works."""
from __future__ import annotations

import importlib.util
import os
import shutil
import threading
import unittest
from pathlib import Path
from typing import TYPE_CHECKING, Any
from urllib.parse import parse_qs, unquote

from svnask.asking.parser import parsed
from svnask.cli.verbs import web
from svnask.lazy import Lazy
from tests.ask import base, drawn_repositories

if TYPE_CHECKING:
    import waitress
    from selenium import webdriver
    from selenium.webdriver.chrome import service

    from svnask.web import hosts, site, wsgi
else:
    waitress = Lazy("waitress")
    webdriver, service = Lazy("selenium.webdriver"), Lazy("selenium.webdriver.chrome.service")
    hosts, site, wsgi = Lazy("svnask.web.hosts"), Lazy("svnask.web.site"), Lazy("svnask.web.wsgi")

DRIVER = shutil.which("chromedriver") or ""
LACKING = [name for name in (*web.NEEDED, "selenium") if importlib.util.find_spec(name) is None]
LACKING += [] if DRIVER else ["chromedriver"]
SIZES = ((1400, 1000), (800, 900), (390, 844))
ADDRESSES = {
    "overview": "/",
    "revision": "/revision/13",
    "path": "/path/branches/two?merged=1",
    "compare": "/compare?from=/branches/one&to=/branches/two",
    "checks": "/checks",
    "search": "/search?q=merge&paths=1",
}
# Where screenshots are written to, if the environment names a folder.
SCREENSHOTS = "SVNASK_SCREENSHOTS"


def browser(has_scripts: bool = True) -> Any:
    """Start a browser without a window."""
    made: Any = webdriver.ChromeOptions()
    for option in ("--headless=new", "--no-sandbox", "--disable-dev-shm-usage"):
        made.add_argument(option)
    made.set_capability("goog:loggingPrefs", {"browser": "ALL"})
    if not has_scripts:
        made.add_experimental_option("prefs", {"profile.managed_default_content_settings.javascript": 2})
    return webdriver.Chrome(options=made, service=service.Service(DRIVER))


@unittest.skipIf(LACKING, f"not installed: {', '.join(LACKING)}")
class Browsed(base.Case):
    """A test of pages in a browser."""

    front: str
    browser: Any

    def serve(self, dump: Path) -> None:
        """Serve the pages of a dump, and start a browser, which ends before the server does."""
        given = parsed([str(dump), "web", "--link", "https://host/view{path}?r={revision}"])
        application = wsgi.Application(given, hosts.Hosts())
        server: Any = waitress.create_server(application, host="127.0.0.1", port=0, clear_untrusted_proxy_headers=True)
        self.front = f"http://127.0.0.1:{server.effective_port}"
        thread = threading.Thread(target=server.run, daemon=True)
        thread.start()
        self.addCleanup(application.close)
        self.addCleanup(thread.join)
        self.addCleanup(server.close)
        self.browser = self.started()

    def started(self, has_scripts: bool = True) -> Any:
        found = browser(has_scripts)
        self.addCleanup(found.quit)
        return found

    def open(self, address: str) -> None:
        self.browser.get(self.front + address)
        base.wait_for(lambda: not self.browser.title.startswith("Please wait"))

    def addresses(self, selector: str) -> list[str]:
        """The addresses on this server to which the links of some elements lead."""
        found = self.browser.execute_script(
            f"return [...document.querySelectorAll('{selector} a[href]')].map((link) => link.href.baseVal || link.href)"
        )
        own = (link[len(self.front) * link.startswith(self.front) :] for link in found)
        return [link for link in dict.fromkeys(own) if link.startswith("/")]

    def texts(self, selector: str) -> list[str]:
        """The texts of what can be seen of some elements."""
        found = self.browser.find_elements("css selector", selector)
        return [each.text for each in found if each.is_displayed()]

    def status(self) -> int:
        """The status with which the page was answered."""
        found: int = self.browser.execute_script("return performance.getEntriesByType('navigation')[0].responseStatus")
        return found


class Pages(Browsed):
    def setUp(self) -> None:
        super().setUp()
        self.serve(base.dump_of("merges"))

    def click(self, selector: str, text: str = "") -> None:
        found = self.browser.find_elements("css selector", selector)
        next(each for each in found if text in each.text and each.is_displayed()).click()

    def wait_for_title(self, title: str) -> None:
        base.wait_for(lambda: self.browser.title.startswith(title))

    def test_pages_open_in_each_size(self) -> None:
        folder = os.environ.get(SCREENSHOTS)
        for width, height in SIZES:
            self.browser.set_window_size(width, height)
            for name, address in ADDRESSES.items():
                self.open(address)
                self.assertTrue(self.texts("h1"))
                self.assertEqual(self.browser.get_log("browser"), [], (name, width))
                # Nothing but a table or a picture is wider than the window.
                wider = self.browser.execute_script(
                    "return document.documentElement.scrollWidth - document.documentElement.clientWidth"
                )
                self.assertLessEqual(wider, 0, (name, width))
                if folder:
                    self.browser.save_screenshot(str(Path(folder) / f"{name}-{width}.png"))

    def test_each_link_opens_a_page(self) -> None:
        for address in ADDRESSES.values():
            self.open(address)
            for link in sorted(self.addresses("main"))[:12]:
                self.open(link)
                self.assertNotIn("Not Found", self.browser.title)
                self.assertEqual(self.browser.get_log("browser"), [], link)

    def test_a_table_is_sorted_and_filtered(self) -> None:
        self.open("/")
        names = self.texts("table.branches tbody th a.path")
        self.click("table.branches button.sort", "Name")
        self.assertEqual(self.texts("table.branches tbody th a.path"), sorted(names))
        self.click("table.branches button.sort", "Name")
        self.assertEqual(self.texts("table.branches tbody th a.path"), sorted(names, reverse=True))
        self.click("table.branches button.sort", "Last change")
        changes = self.texts("table.branches tbody td:nth-child(4)")
        self.assertEqual(changes, sorted(changes, key=lambda text: int(text[1:])))
        self.browser.find_element("css selector", "[data-filter]").send_keys("TWO")
        self.assertEqual(self.texts("table.branches tbody th a.path"), ["/branches/two"])

    def test_the_picture_is_enlarged_and_moved(self) -> None:
        self.browser.set_window_size(500, 700)
        self.open("/")
        run = self.browser.execute_script
        width = run("return document.querySelector('.picture svg').getBoundingClientRect().width")
        self.click(".zoom button", "Larger")
        self.click(".zoom button", "Larger")
        wider = run("return document.querySelector('.picture svg').getBoundingClientRect().width")
        self.assertAlmostEqual(wider, width * 1.25 * 1.25, delta=1)
        self.assertEqual(self.texts(".names-in-sight text"), [])
        run("document.querySelector('.picture').scrollTo(200, 0)")
        wait = "return document.querySelector('.names-in-sight').style.display"
        base.wait_for(lambda: run(wait) == "block")
        self.assertEqual(set(self.texts(".names-in-sight text")), set(self.texts("table.branches tbody th a.path")))
        left = "return Math.round(document.querySelector('.names-in-sight text').getBoundingClientRect().left)"
        before = run(left)
        run("document.querySelector('.picture').scrollTo(300, 0)")
        base.wait_for(
            lambda: run("return document.querySelector('.names-in-sight').style.transform").startswith("translateX(300")
        )
        self.assertEqual(run(left), before)
        self.click(".zoom button", "As drawn")
        drawn = run("return document.querySelector('.picture svg').getBoundingClientRect().width")
        self.assertAlmostEqual(drawn, width, delta=1)

    def test_a_mark_opens_its_revision(self) -> None:
        self.open("/")
        self.browser.execute_script(
            "const marks = [...document.querySelectorAll('.picture a')];"
            "marks.find((mark) => mark.href.baseVal.endsWith('/revision/9')).dispatchEvent(new MouseEvent('click'))"
        )
        self.wait_for_title("r9 ")

    def test_what_a_new_user_does(self) -> None:
        self.open("/")
        # Who has r5?
        self.browser.find_element("css selector", "nav input").send_keys("r5\n")
        self.wait_for_title("r5 ")
        self.assertIn("/branches/two", self.texts("tbody th a.path"))
        # What of a branch is not in the trunk, and whose is it?
        self.click("nav a", "Branches")
        self.click("table.branches td.number a")
        self.wait_for_title("/trunk and /branches/one ")
        self.assertIn("To be merged from /branches/one into /trunk", self.texts("h2"))
        # The same as a text for an announcement.
        self.click("main a", "Markdown")
        self.assertIn("- r", self.browser.find_element("css selector", "pre").text)
        # Which tags were touched?
        self.open("/checks")
        self.assertEqual(self.texts("h2")[0], "Tags")

    def test_without_scripts_it_can_be_read(self) -> None:
        self.browser = self.started(has_scripts=False)
        for address in ADDRESSES.values():
            self.open(address)
            self.assertTrue(self.texts("h1"))
            self.assertEqual(self.texts("button.sort") + self.texts("[data-filter]") + self.texts(".zoom"), [])
        self.open("/")
        self.assertEqual(len(self.texts("table.branches tbody tr")), 4)
        self.assertTrue(self.texts(".picture svg"))
        self.browser.find_element("css selector", "[name=since]").send_keys("9")
        self.click("form.chosen button", "Draw")
        self.assertIn("since=9", self.browser.current_url)


class Crawls(Browsed):
    """All pages of repositories with odd names, nested merges, renames and replacements."""

    # How many pages were opened, and how many of each repository are at most.
    pages, most = 0, 80

    def check_links(self, dump: Path) -> None:
        """Open the pages of a dump, each from a link, and compare them with what their links and commands name."""
        self.serve(dump)
        left, seen = ["/"], {"/"}
        while left and len(seen) <= self.most:
            address = left.pop(0)
            self.open(address)
            self.pages += 1
            self.assertEqual((self.status(), self.browser.get_log("browser")), (200, []), (dump, address))
            self.check_title(address)
            for line in self.texts("footer pre"):
                self.check_command(address, line)
            new = [link.partition("#")[0] for link in self.addresses("main")]
            left += [link for link in new if link not in seen and not link.startswith(("/text", "/csv"))]
            seen.update(new)

    def check_title(self, address: str) -> None:
        """Check that a page of a path is about what its address names."""
        path, _, query = address.partition("?")
        rev = parse_qs(query).get("rev", [""])[0]
        if path.startswith("/path/") and rev:
            shown = site.printable(unquote(path[len("/path") :], errors="surrogateescape"))
            self.assertEqual(self.texts("h1"), [" ".join(f"{shown}@{rev}".split())])

    def check_command(self, address: str, line: str) -> None:
        """Check that a command prints what its page has, or says why there is nothing, as the page does."""
        words = base.words_of(line)
        done = base.called(*words)
        if done.status != 0 and "check-mergeinfo" not in words:
            self.assertIn(done.said.splitlines()[0].partition("svnask: ")[2], self.texts("main")[0], (address, line))
            return
        if words[1] == "log" and "--search" not in line:
            wanted = [f"r{rev}" for rev in map(int, base.HEAD_OF_ENTRY.findall(done.output))]
            self.assertEqual(self.first_column("Log"), wanted[:50], (address, line))
        elif words[1] == "contains":
            self.assertEqual(len(self.first_column("Who has it")), done.output.count(b"\n"), (address, line))

    def first_column(self, heading: str) -> list[str]:
        """The texts of the first column of the table that follows a heading, if a table does."""
        found = self.browser.find_elements(
            "xpath", f"//h2[.='{heading}']/following-sibling::*[self::table or self::h2][1]"
        )
        return [
            each.text.split("↗")[0].strip()
            for table in found
            for each in table.find_elements("css selector", "tbody th")
        ]

    def test_recorded_and_drawn_repositories(self) -> None:
        for name in ("names", "copies", "projects"):
            self.check_links(base.dump_of(name))
        self.drawn(5, drawn_repositories.drawn, self.check_links)
        self.assertGreater(self.pages, 150)
