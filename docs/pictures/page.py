"""A screenshot of the page of examples/accumulator.dw, for README.md: the cursor at tick 9, the mouse over a gate. Run by docs/pictures/make
with Debian's own python3, which has selenium: page.py PAGE.html PICTURE.png"""
import os
import sys
from pathlib import Path

from selenium import webdriver
from selenium.webdriver.chrome.service import Service
from selenium.webdriver.common.action_chains import ActionChains
from selenium.webdriver.common.by import By
from selenium.webdriver.common.keys import Keys

options = webdriver.ChromeOptions()
for word in ("--headless=new", "--disable-gpu", "--window-size=1180,900", "--hide-scrollbars") + (("--no-sandbox",) if os.geteuid() == 0 else ()):
    options.add_argument(word)
options.binary_location = "/usr/bin/chromium"
driver = webdriver.Chrome(service=Service("/usr/bin/chromedriver"), options=options)
try:
    driver.get(Path(sys.argv[1]).resolve().as_uri())
    driver.find_element(By.CSS_SELECTOR, "#waves .track").send_keys(*[Keys.ARROW_RIGHT] * 9)
    driver.execute_script("scrollTo(0, 0)")
    ActionChains(driver).move_to_element(driver.find_element(By.CSS_SELECTOR, "#whole .gate.xor")).perform()
    driver.save_screenshot(sys.argv[2])
finally:
    driver.quit()
