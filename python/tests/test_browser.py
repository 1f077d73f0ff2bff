"""The panel and a recording in a browser without a screen. Needs python3-selenium, chromium and chromium-driver."""
import shutil
import threading

import pytest

from linthofer import Machine, grid
from linthofer.panel import Server, Session
from linthofer.recording import Recording
from linthofer.stepping import Stepping

webdriver = pytest.importorskip("selenium.webdriver")
from selenium.webdriver.common.by import By                       # noqa: E402
from selenium.webdriver.common.keys import Keys                   # noqa: E402
from selenium.webdriver.support.ui import Select, WebDriverWait   # noqa: E402

pytestmark = pytest.mark.skipif(not shutil.which("chromedriver"), reason="no chromedriver")
MOST_SECONDS = 90
PROGRAM = """; each processor sends to processor 0 of the chip across dimension 0
field rel 3968 16
const rel 1
set 12
cycle
cycle
sense
clear 14
cycle
"""


@pytest.fixture(scope="module")
def browser():
    options = webdriver.ChromeOptions()
    for word in ("headless=new", "no-sandbox", "disable-gpu", "disable-dev-shm-usage", "window-size=1400,1300"):
        options.add_argument(f"--{word}")
    options.set_capability("goog:loggingPrefs", {"browser": "ALL"})
    driver = webdriver.Chrome(service=webdriver.chrome.service.Service(shutil.which("chromedriver")), options=options)
    yield driver
    driver.quit()


class Page:
    """What a user sees and does."""

    def __init__(self, browser):
        self.browser = browser

    def text(self, name):
        return self.browser.find_element(By.ID, name).text

    def sees(self, what):
        WebDriverWait(self.browser, MOST_SECONDS).until(lambda _: what())

    def sees_text(self, name, text):
        self.sees(lambda: text in self.text(name))

    def keys(self, *keys):
        """Types where the focus is."""
        self.browser.switch_to.active_element.send_keys(*keys)

    def tabs_to(self, name):
        """Goes there by the tabulator alone."""
        for _ in range(200):
            if self.browser.switch_to.active_element.get_attribute("id") == name:
                return
            self.keys(Keys.TAB)
        raise AssertionError(f"the tabulator does not come to {name}")

    def next_line(self):
        """The words of the source's line that comes next."""
        return self.browser.find_element(By.CSS_SELECTOR, "#program [aria-current]").text.split()[1:]

    def has_no_complaint(self):
        return [it for it in self.browser.get_log("browser") if it["level"] == "SEVERE"] == []


@pytest.fixture
def open_panel(browser, tmp_path):
    """Opens the panel of a blank machine with a program; the page and its server."""
    opened = []

    def opens(dims, program):
        with Machine(dims=dims) as machine:
            machine.save(tmp_path / "a.image")
        (tmp_path / "program.txt").write_text(program)
        server = Server(Session(Stepping(str(tmp_path / "a.image"), str(tmp_path / "program.txt"))))
        opened.append(server)
        threading.Thread(target=server.serve_forever, daemon=True).start()
        browser.get_log("browser")
        browser.get(server.address)
        page = Page(browser)
        page.sees_text("position", "before act 0 of")
        return page, server
    yield opens
    browser.get("about:blank")
    for server in opened:
        server.shutdown()
        server.server_close()
        server.session.stepping.close()


def test_the_keyboard_alone_is_enough(browser, open_panel):
    page, _ = open_panel(4, PROGRAM)
    assert "#" not in browser.current_url                         # the token is not left in the address
    page.keys("a")
    page.sees_text("position", "before act 1 of")
    page.keys("l")
    page.sees(lambda: page.next_line() == ["set", "12"])
    page.keys("c")
    page.sees(lambda: page.text("clock") == "1")
    page.tabs_to("lamps")
    page.keys(Keys.SHIFT + Keys.ARROW_RIGHT)
    page.keys(Keys.NULL, Keys.ENTER)
    page.sees_text("chip-title", "Chip 1")
    page.tabs_to("what")
    page.keys("mes")                                              # "messages in each router"
    page.sees_text("told", "messages")
    while browser.switch_to.active_element.text != "show its way":
        page.keys(Keys.TAB)
    page.keys(Keys.ENTER)
    page.sees_text("way", "cycle 0: ")
    assert browser.switch_to.active_element.text == "show its way"            # the focus stays
    page.tabs_to("line")
    page.keys("buf 1", Keys.ENTER)
    page.sees_text("answers", "msg ")
    page.keys("always", Keys.ENTER)                               # letters are typed there, and no steps
    page.sees_text("answers", "always")
    assert page.text("clock") == "1" and page.has_no_complaint()


def test_a_refused_line_is_told_with_its_words(open_panel):
    page, _ = open_panel(2, PROGRAM)
    page.tabs_to("line")
    page.keys("mul x y", Keys.ENTER)
    page.sees_text("fault", "? 16 Operands")


def test_a_breakpoint_stops_a_run_and_back_goes_back(browser, open_panel):
    page, _ = open_panel(2, PROGRAM)
    line = browser.find_elements(By.CSS_SELECTOR, "#program button")[7]
    line.send_keys(Keys.ENTER)
    page.sees(lambda: line.get_attribute("aria-pressed") == "true")
    page.keys("r")
    page.sees(lambda: page.next_line() == ["clear", "14"])
    page.keys("b")
    page.sees(lambda: page.next_line() == ["sense"])
    page.keys("0")
    page.sees_text("position", "before act 0 of")
    assert page.has_no_complaint()


def test_keys_can_be_turned_off(browser, open_panel):
    page, _ = open_panel(0, PROGRAM)
    page.tabs_to("keys")
    page.keys(Keys.SPACE)
    page.keys("a")
    page.keys(Keys.SPACE)
    page.keys("a")
    page.sees_text("position", "before act 1 of")


def test_another_page_of_the_same_browser_gets_no_answer(browser, open_panel):
    _, server = open_panel(0, PROGRAM)
    browser.get("data:text/html,another page")
    told = browser.execute_async_script("""
        const [address, token, done] = arguments;
        const headers = {"Content-Type": "application/json", "X-Linthofer-Token": token};
        fetch(address, {method: "POST", headers, body: "{}"}).then(() => done("read"), () => done("refused"));
        """, f"http://127.0.0.1:{server.server_port}/do", server.token)
    assert told == "refused"


def test_a_step_of_the_largest_machine_is_shown_soon(browser, open_panel):
    page, server = open_panel(12, "set 9\nclear 9\n" * 12)
    bits = " ".join(str(place * 2_654_435_761 >> 20 & 1) for place in range(65_536))
    server.session.stepping.machine.ask(f"put 0 1 {bits}")
    milliseconds = [browser.execute_async_script("""
        const done = arguments[0], begin = performance.now();
        performance.clearMarks("shown");
        document.querySelector("#steps button").click();
        (function look() {
            const isShown = performance.getEntriesByName("shown").length;
            if (isShown) requestAnimationFrame(() => done(performance.now() - begin)); else setTimeout(look, 0);
        })();""") for _ in range(11)]
    page.sees_text("position", "before act 11 of")
    print("milliseconds from a key to the lamps:", *(f"{it:.0f}" for it in sorted(milliseconds)))
    assert min(milliseconds) < 500                                # of eleven; tests run on busy computers too


LAMPS = """
    const [rows, columns] = arguments, canvas = document.getElementById("lamps"), size = canvas.width / columns;
    const dots = canvas.getContext("2d").getImageData(0, 0, canvas.width, canvas.height).data, lit = [];
    const middle = at => Math.floor((at + 0.5) * size);
    for (let row = 0; row < rows; row++)
        for (let column = 0; column < columns; column++)
            if (dots[4 * (middle(row) * canvas.width + middle(column))] > 200) lit.push([row, column]);
    return lit;"""


@pytest.mark.parametrize("dims", [0, 3, 12])
def test_a_lamp_lies_where_its_processor_lies(browser, tmp_path, dims):
    with Machine(dims=dims) as machine:
        x, film = machine.field(1), Recording(machine, "where")
        rows, columns = machine.shape
        wanted = [(0, 0), (1, 2), (rows - 2, 1), (rows - 1, columns - 1)]
        for row, column in wanted:
            x[:] = 0
            x[divmod(grid.place_at(dims, row, column), 16)] = 1
            film.take(x)
        chip = machine.chips * 5 // 8                             # one of the two that it sends to itself stands there
        machine.ask(f"pokeflag {chip} 3 12 1\npokeflag {chip} 4 12 1\nfield rel 3968 16\nconst rel 0\ncycle")
        film.take("buffers")
        film.frames[-1]["most"] = 1
        film.save(str(tmp_path / "film.html"))
    browser.get(f"file://{tmp_path}/film.html")
    page = Page(browser)
    for number, place in enumerate(wanted, 1):
        page.sees_text("position", f"{number} of 5")
        page.sees(lambda: browser.execute_script(LAMPS, rows, columns) == [list(place)])
        page.keys("a")
    page.sees_text("position", "5 of 5")
    where = list(divmod(chip, columns // 4))
    page.sees(lambda: browser.execute_script(LAMPS, rows // 4, columns // 4) == [where])


LIT = ("const canvas = document.getElementById('lamps'), size = canvas.width / 8;"
       "return canvas.getContext('2d').getImageData(size / 2, size / 2, 1, 1).data[0] > 200")


def test_a_recording_plays_from_a_file(browser, tmp_path):
    with Machine(dims=2) as machine:
        x = machine.field(1)
        film = Recording(machine, "A film <b>", "note")
        for turn in range(3):
            x[:] = turn % 2
            film.take(x, f"turn {turn}")
        film.save(str(tmp_path / "film.html"))
    browser.get_log("browser")
    browser.get(f"file://{tmp_path}/film.html")
    page = Page(browser)
    page.sees_text("position", "1 of 3: turn 0")
    assert page.text("title") == "A film <b>" and not browser.execute_script(LIT)
    page.keys("a")
    page.sees_text("position", "2 of 3: turn 1")
    page.sees(lambda: browser.execute_script(LIT))
    page.keys("r")
    page.sees_text("position", "3 of 3: turn 2")
    page.sees(lambda: not browser.execute_script(LIT))
    assert page.has_no_complaint()
