"""A headless browser that the page is tried in, by Debian's chromium, chromium-driver and python3-selenium."""
import shutil
import sys
import time

sys.path.append("/usr/lib/python3/dist-packages")
NEEDED = "apt-get install chromium chromium-driver python3-selenium"
ENTER, ESCAPE = "\ue007", "\ue00c"
# What a test makes happen: a request that is cut or refused, and a sound before a press allows it.
EXPECTED = ("net::", "503", "423", "AudioContext was not allowed")

# By these words chromedriver keeps a browser from slowing pages that are out of sight.
UNSLOWED = ("disable-background-timer-throttling", "disable-renderer-backgrounding",
            "disable-backgrounding-occluded-windows")

# What an element is that was replaced or moved meanwhile, or that of a page which loads itself again.
PASSING = ("StaleElement", "NoSuchElement", "NotInteractable", "ClickIntercepted", "Javascript")


def is_there():
    """Whether a browser can be driven here."""
    try:
        import selenium  # noqa: F401
    except ImportError:
        return False
    return bool(shutil.which("chromium") and shutil.which("chromedriver"))


class Browser:
    """One window, 1280 by 800. `slows`: as at a desk, it slows a page that is out of sight."""

    def __init__(self, slows=False):
        from selenium import webdriver
        options = webdriver.ChromeOptions()
        for word in ("--headless=new", "--no-sandbox", "--disable-gpu", "--disable-dev-shm-usage",
                     "--hide-scrollbars", "--window-size=1280,940", "--force-device-scale-factor=1"):
            options.add_argument(word)
        if slows:
            options.add_experimental_option("excludeSwitches", list(UNSLOWED))
        options.set_capability("goog:loggingPrefs", {"browser": "ALL"})
        service = webdriver.ChromeService("/usr/bin/chromedriver") if hasattr(webdriver, "ChromeService") else None
        if service is None:
            from selenium.webdriver.chrome.service import Service
            service = Service("/usr/bin/chromedriver")
        self.driver = webdriver.Chrome(service=service, options=options)

    def open(self, address):
        self.driver.get(address)

    def run(self, script, *values):
        return self.driver.execute_script(script, *values)

    def find(self, name):
        return self.driver.find_element("id", name)

    def text(self, name):
        return self.find(name).text

    def click(self, name):
        """Presses it as soon as it can be pressed."""
        def pressed():
            place = self.find(name)
            return place.is_enabled() and (place.click() or True)
        if not self.waits_for(pressed):
            raise AssertionError(f"{name} cannot be pressed")

    def key(self, key):
        """A key that the whole page hears."""
        from selenium.webdriver.common.action_chains import ActionChains
        ActionChains(self.driver).send_keys(key).perform()

    def waits_for(self, holds, seconds=10.0):
        """Whether it holds in time."""
        end = time.monotonic() + seconds
        while time.monotonic() < end:
            try:
                if holds():
                    return True
            except Exception as error:
                if not any(word in type(error).__name__ for word in PASSING):
                    raise
            time.sleep(0.02)
        return False

    def shows(self, name, text, seconds=10.0):
        """Whether the element comes to show this text."""
        return self.waits_for(lambda: text in self.text(name), seconds)

    def sized(self, width=None, height=None):
        """Gives the page a window of this size; without one, its own again."""
        if width is None:
            self.driver.execute_cdp_cmd("Emulation.clearDeviceMetricsOverride", {})
        else:
            self.driver.execute_cdp_cmd("Emulation.setDeviceMetricsOverride",
                                        {"width": width, "height": height, "deviceScaleFactor": 1, "mobile": False})
        time.sleep(0.3)

    def behind_another(self):
        """Puts another tab in front of the page."""
        self.own = self.driver.current_window_handle
        self.driver.switch_to.new_window("tab")

    def in_front(self, script):
        """Puts the page in front again, and runs this there."""
        self.driver.switch_to.window(self.own)
        return self.run(script)

    def picture(self, path):
        self.driver.save_screenshot(str(path))

    def complaints(self):
        """What the browser's console says against the page, but for what a test made happen."""
        return [line["message"] for line in self.driver.get_log("browser")
                if not any(part in line["message"] for part in EXPECTED)]

    def close(self):
        self.driver.quit()
