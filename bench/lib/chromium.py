"""Chromium without a window, by Selenium, for benches that look at pages."""

import os
import sys

from lib.program import stop

SYSTEM = '/usr/bin/python3'
STARTS_WITHIN = 300000          # milliseconds: on a busy machine


def take_selenium(packages='chromium chromium-driver python3-selenium'):
    """Begins this program again by the system's Python, where that alone has Selenium."""
    try:
        import selenium  # noqa: F401
    except ImportError:
        if os.path.realpath(sys.executable) == os.path.realpath(SYSTEM) or not os.path.exists(SYSTEM):
            stop('wants: apt-get install ' + packages)
        os.execv(SYSTEM, [SYSTEM, *sys.argv])


def chromium(profile, *words):
    """A browser with a profile in this folder. CHROMIUM, CHROMEDRIVER and CHROMIUM_WORDS say others."""
    from selenium import webdriver
    from selenium.webdriver.chrome.options import Options
    from selenium.webdriver.chrome.service import Service
    options = Options()
    options.binary_location = os.environ.get('CHROMIUM', '/usr/bin/chromium')
    for word in ('--headless=new', '--no-sandbox', '--disable-gpu', '--disable-dev-shm-usage', '--no-first-run',
                 '--disable-background-networking', '--user-data-dir=' + profile, *words,
                 *filter(None, os.environ.get('CHROMIUM_WORDS', '').split(','))):
        options.add_argument(word)
    options.add_experimental_option('browserStartupTimeout', STARTS_WITHIN)
    options.set_capability('goog:loggingPrefs', {'browser': 'ALL'})
    return webdriver.Chrome(service=Service(os.environ.get('CHROMEDRIVER', '/usr/bin/chromedriver')), options=options)
