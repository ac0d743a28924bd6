"""The page in headless Chromium, driven as a user would drive it."""
import pathlib
import time

from selenium import webdriver
from selenium.webdriver.chrome.options import Options
from selenium.webdriver.chrome.service import Service

WEB = pathlib.Path(__file__).resolve().parents[1]
PAGE = WEB / "dist/causal.html"
OUT = WEB / "out"
PHONE = 600  # pixels


def start(width=1400, height=900, dark=False, downloads=None):
    """A browser with a window of this size."""
    options = Options()
    options.binary_location = "/usr/bin/chromium"
    for word in ["--headless=new", "--no-sandbox", "--disable-gpu", "--hide-scrollbars",
                 "--force-device-scale-factor=1", f"--window-size={width},{height}"]:
        options.add_argument(word)
    options.set_capability("goog:loggingPrefs", {"browser": "ALL", "performance": "ALL"})
    if downloads:
        options.add_experimental_option("prefs", {"download.default_directory": str(downloads)})
    driver = webdriver.Chrome(options=options, service=Service("/usr/bin/chromedriver"))
    driver.set_script_timeout(120)
    size = {"width": width, "height": height, "deviceScaleFactor": 1, "mobile": width < PHONE}
    driver.execute_cdp_cmd("Emulation.setDeviceMetricsOverride", size)
    scheme = {"name": "prefers-color-scheme", "value": "dark" if dark else "light"}
    driver.execute_cdp_cmd("Emulation.setEmulatedMedia", {"features": [scheme]})
    return driver


def open_page(driver, address=None, fragment=""):
    """Opens the page, from disk where no address is given, and waits for its first answer."""
    driver.get("about:blank")
    driver.get((address or PAGE.as_uri()) + fragment)
    ready = "return document.body && document.body.dataset.ready"
    if not wait(lambda: driver.execute_script(ready), 30):
        raise AssertionError(f"the page isn't ready: {driver.get_log('browser')}")
    return int(driver.execute_script(ready))


def wait(test, seconds=60):
    """Whether something comes true in this time."""
    end = time.time() + seconds
    while time.time() < end:
        try:
            if test():
                return True
        except Exception:  # what is looked for may not be there yet
            pass
        time.sleep(0.05)
    return False


def example(driver, name):
    """Loads an example by the menu, and waits until it's drawn and answered."""
    driver.execute_script("""const menu = document.getElementById('examples-menu');
        menu.value = arguments[0];
        menu.dispatchEvent(new Event('change'));""", name)
    time.sleep(0.7)


def survey(exposure=0, outcome=39, roles=None, more=()):
    """The diagram of 40 vertices that `causal survey 1` counts over, as text."""
    state, edges = 1, []
    for i in range(39):
        for j in range(i + 1, 40):
            state = (state * 6364136223846793005 + 1442695040888963407) % 2**64
            drawn = (state >> 33) % 16
            if drawn < 4:
                edges.append(f"v{i} {'->' if drawn < 3 else '<->'} v{j}")
    roles = {exposure: "exposure", outcome: "outcome", **(roles or {})}
    vertices = [f"v{i} [{roles[i]}]" if i in roles else f"v{i}" for i in range(40)]
    return "dag {\n" + "\n".join([*vertices, *edges, *more]) + "\n}\n"
