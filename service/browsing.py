"""The page in a browser: a verdict is seen to appear, by the keyboard, at two widths."""

import os
import subprocess
from contextlib import contextmanager
from typing import Iterator

from load import Kind, have
from needs import TOP
from picture import Painter
from selenium import webdriver
from selenium.webdriver.chrome.service import Service
from selenium.webdriver.common.by import By
from selenium.webdriver.common.keys import Keys
from served import Served, wait_until

WIDTHS = {"wide": 1280, "phone": 375}
SECONDS = 30


@contextmanager
def browser(width: int) -> Iterator[webdriver.Chrome]:
    """Chromium without a window, with a page of this width."""
    options = webdriver.ChromeOptions()
    options.binary_location = "/usr/bin/chromium"
    for word in ("--headless=new", "--no-sandbox", "--disable-dev-shm-usage", "--hide-scrollbars"):
        options.add_argument(word)
    options.set_capability("goog:loggingPrefs", {"browser": "ALL"})
    driver = webdriver.Chrome(service=Service("/usr/bin/chromedriver"), options=options)
    try:
        driver.set_page_load_timeout(SECONDS)
        resize(driver, width, 1000)
        yield driver
    finally:
        driver.quit()


def resize(driver: webdriver.Chrome, width: int, height: int) -> None:
    sizes = {"width": width, "height": height, "deviceScaleFactor": 1, "mobile": width < 600}
    driver.execute_cdp_cmd("Emulation.setDeviceMetricsOverride", sizes)


def shoot(driver: webdriver.Chrome, width: int, file: str) -> None:
    """Keeps the whole page as a picture."""
    resize(driver, width, max(600, driver.execute_script("return document.documentElement.scrollHeight")))
    driver.save_screenshot(file)


def appears(driver: webdriver.Chrome, place: str, text: str) -> None:
    def holds() -> bool:
        return text in driver.execute_script("return document.querySelector(arguments[0])?.textContent ?? ''", place)

    have(wait_until(holds, SECONDS), f"'{text}' doesn't appear at {place} of the page within {SECONDS} s")


def tab_to(driver: webdriver.Chrome, place: str) -> None:
    """Goes on with the key Tab until something has the focus."""
    for _ in range(200):
        if driver.execute_script("return document.activeElement.matches(arguments[0])", place):
            return
        driver.switch_to.active_element.send_keys(Keys.TAB)
    have(False, f"the key Tab doesn't lead to {place}")


def look(served: Served, program: str, folder: str, valve: Kind, attacked: str) -> list[str]:
    """Looks at the page while devices are enrolled, challenged and answer, one honest and one attacked. The names of the screenshots."""

    def run_device(number: int, case: str) -> None:
        words = [os.path.join(TOP, "service/device"), served.address, str(number), valve.image, case]
        done = subprocess.run(words, env={**os.environ, "OAT": program}, capture_output=True, text=True, timeout=120)
        have(done.returncode == 0, f"service/device: {done.stdout}{done.stderr}")

    shots = []
    for name, width in WIDTHS.items():
        with browser(width) as driver:
            driver.get(f"{served.address}/")
            appears(driver, "#entry h2", "token")
            driver.find_element(By.ID, "token").send_keys(served.token + Keys.ENTER)
            appears(driver, "#link", "by themselves")
            driver.execute_script("window.neverLoadedAgain = true")
            if not shots:
                enrol(driver, 1, valve)
                enrol(driver, 2, valve)
            challenge_by_keyboard(driver, 1)
            appears(driver, "#detail-words", "No answer has come yet")
            run_device(1, valve.case)
            appears(driver, "#detail-words", "Accepted")
            appears(driver, "#path", "icall valve.stays#0 shut")
            challenge_by_keyboard(driver, 2)
            run_device(2, attacked)
            appears(driver, "[data-device='2']", "refuse replay 6 BitsEnd")
            appears(driver, "#detail-words", "the run never came to the branch")
            have(driver.execute_script("return window.neverLoadedAgain === true"), "the page was loaded again")
            look_at_picture(driver)
            have(driver.execute_script("return document.documentElement.scrollWidth <= innerWidth"), f"the page is wider than {width}")
            have(valve.key() not in driver.page_source, "the page shows a key")
            shots.append(f"{name}.png")
            shoot(driver, width, os.path.join(folder, shots[-1]))
            bad = [line["message"] for line in driver.get_log("browser") if line["level"] == "SEVERE" and "401" not in line["message"]]
            have(not bad, f"the page has errors: {bad[:1]}")
    return shots


def enrol(driver: webdriver.Chrome, number: int, kind: Kind) -> None:
    """Enrols a device by the page's form."""
    if not driver.find_element(By.ID, "enrol").is_displayed():
        tab_to(driver, "summary")
        driver.switch_to.active_element.send_keys(Keys.ENTER)
    for field, value in (("id", str(number)), ("image", kind.image), ("key", kind.key())):
        driver.find_element(By.ID, f"enrol-{field}").send_keys(value)
    driver.find_element(By.CSS_SELECTOR, "#enrol button").send_keys(Keys.ENTER)
    appears(driver, "#devices", f"device {number}")


def challenge_by_keyboard(driver: webdriver.Chrome, number: int) -> None:
    driver.execute_script("document.activeElement.blur()")
    tab_to(driver, f"[data-device='{number}'] .ask button")
    driver.switch_to.active_element.send_keys(Keys.ENTER)
    appears(driver, "#detail-facts", f"{number}, operation 1")


def look_at_picture(driver: webdriver.Chrome) -> None:
    """The refused call's picture is there where pictures can be drawn."""
    if Painter().is_here:
        drawn = "const p = document.getElementById('picture'); return p.complete && p.naturalWidth > 0"
        have(wait_until(lambda: driver.execute_script(drawn), SECONDS), "the picture doesn't appear")
    else:
        have(not driver.find_element(By.ID, "detail-picture").is_displayed(), "the page speaks of a picture that isn't there")
