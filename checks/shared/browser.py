"""A Chromium without a screen, led by selenium: how a page is seen at a width, light, dark or printed."""
import base64
import pathlib
import sys
from typing import Any

# Debian's package is of the system's Python; another one finds it here.
sys.path.append("/usr/lib/python3/dist-packages")
from selenium import webdriver
from selenium.webdriver.chrome.service import Service


def chromium(*words: str) -> webdriver.Chrome:
    """A browser that is begun with these words besides. It writes down what the console says and what is asked for."""
    options = webdriver.ChromeOptions()
    for word in ("--headless=new", "--no-sandbox", "--disable-dev-shm-usage", "--disable-gpu", "--lang=en-US",
                 "--window-size=1000,1400", *words):
        options.add_argument(word)
    options.set_capability("goog:loggingPrefs", {"browser": "ALL", "performance": "ALL"})
    return webdriver.Chrome(service=Service("/usr/bin/chromedriver"), options=options)


def as_seen(driver: Any, width: int, height: int = 1400, dark: bool = False, printed: bool = False) -> None:
    """The page at a width, light or dark, on a screen or on paper."""
    scheme = [{"name": "prefers-color-scheme", "value": "dark" if dark else "light"}]
    media = {"media": "print" if printed else "screen", "features": scheme}
    driver.execute_cdp_cmd("Emulation.setEmulatedMedia", media)
    driver.execute_cdp_cmd("Emulation.setDeviceMetricsOverride", {
        "width": width, "height": height, "deviceScaleFactor": 1, "mobile": False})


def as_usual(driver: Any) -> None:
    driver.execute_cdp_cmd("Emulation.setEmulatedMedia", {"media": "", "features": []})
    driver.execute_cdp_cmd("Emulation.clearDeviceMetricsOverride", {})


def print_page(driver: Any, place: Any, **paper: Any) -> None:
    """The page as it goes to a printer, as a PDF."""
    sheets = driver.execute_cdp_cmd("Page.printToPDF", paper)
    pathlib.Path(place).write_bytes(base64.b64decode(sheets["data"]))
