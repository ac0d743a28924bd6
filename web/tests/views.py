"""Pictures of the main views, in web/out: light, dark, and as wide as a phone. With the word `tour`: docs/page.png."""
import base64
import sys
import time

from selenium.webdriver.common.by import By

import browser

TOP = browser.WEB.parent

# What to do before the picture: an example, a card, and a script.
VIEWS = {
    "effect": ("napkin", "effect", ""),
    "form": ("hormones", "effect", ""),
    "procedure": ("hormones", "effect", "document.getElementById('procedure').click()"),
    "derivation": ("front_door", "effect", "document.querySelector('summary[data-key=derivation]').click()"),
    "rule": ("front_door", "effect", """const steps = document.querySelectorAll('.steps .asks');
        steps[1].scrollIntoView({block: 'center'}); steps[1].focus()"""),
    "hedge": ("bow", "effect", ""),
    "adjust": ("exported", "adjustment", ""),
    "biased": ("m_bias", "adjustment", """const v = document.querySelector('#drawing [aria-label^="M"]');
        v.dispatchEvent(new KeyboardEvent('keydown', {key: 'a', bubbles: true}))"""),
    "separate": ("collider", "separation", ""),
    "hidden": ("hidden_cause", "separation", ""),
    "rules": ("front_door", "rules", ""),
    "data": ("kidney_stones", "data", "document.getElementById('sample')?.click()"),
    "missing": ("kidney_stones", "data", """const data = new DataTransfer();
        data.items.add(new File(["S,T,R\\nsmall,A,success\\nsmall,A,failure\\nsmall,B,success\\nsmall,B,failure\\nlarge,A,success\\n"], "few.csv"));
        document.body.dispatchEvent(new DragEvent('drop', {dataTransfer: data, bubbles: true, cancelable: true}))"""),
    "formula": ("hormones", "data", "document.getElementById('sample')?.click()"),
    "condition": ("kidney_stones", "data", """document.getElementById('sample')?.click();
        setTimeout(() => { const el = document.getElementById('by'); el.value = 'condition'; el.dispatchEvent(new Event('change')); }, 250);
        setTimeout(() => { const el = document.querySelector('[data-key="add condition"]'); el.value = 'S'; el.dispatchEvent(new Event('change')); }, 500)"""),
    "contrast": ("kidney_stones", "data", """document.getElementById('sample')?.click();
        setTimeout(() => document.querySelector('.contrasts')?.scrollIntoView({block: 'center'}), 700)"""),
    "bounds": ("noncompliance", "data", """document.getElementById('sample')?.click();
        setTimeout(() => { const el = document.querySelector('[data-key="add instrument"]'); el.value = 'assigned'; el.dispatchEvent(new Event('change')); }, 300);
        setTimeout(() => document.querySelector('table.bounds').scrollIntoView({block: 'center'}), 700)"""),
    "treated": ("kidney_stones", "effect", "document.querySelector('#panel [data-key=treated]').click()"),
    "left": ("napkin", "effect", "document.querySelector('#panel [data-key=treated]').click()"),
    "tests": ("fork", "implications", """const data = new DataTransfer();
        data.items.add(new File(["A,B,C,count\\n0,0,0,40\\n0,0,1,22\\n1,0,0,12\\n1,0,1,31\\n0,1,0,15\\n0,1,1,33\\n1,1,0,29\\n1,1,1,11\\n"], "fork.csv"));
        document.body.dispatchEvent(new DragEvent('drop', {dataTransfer: data, bubbles: true, cancelable: true}))"""),
    "paths": ("exported", "adjustment", "document.getElementById('paths').click()"),
    "several": ("napkin", "effect", """for (const v of [...document.querySelectorAll('#drawing .vertex')].slice(0, 2)) {
        v.dispatchEvent(new KeyboardEvent('keydown', {key: 's', bubbles: true})); }
        document.getElementById('selected').click()"""),
    "direct": ("front_door", "effect", "document.querySelector('#panel [data-key=direct]').click()"),
    "first": ("firefighters", "adjustment", ""),
    "pathlist": ("warm_up", "paths", "document.getElementById('paths').click()"),
    "class": ("warm_up", "views", "document.querySelector('[data-key=\"view class\"]').click()"),
    "next": ("bow", "effect", "document.querySelector('summary[data-key=next]').click()"),
    "warning": ("napkin", "effect", """const t = document.getElementById('text');
        t.value = t.value.replace('}', 'note = x\\n~\\n}'); t.dispatchEvent(new Event('input'))"""),
    "compare": ("chain", "compare", """const t = document.querySelector('textarea.second');
        t.value = 'dag { A -> B <- C }'; t.dispatchEvent(new Event('input'))"""),
    "fault": ("napkin", "effect", """const t = document.getElementById('text');
        t.value = t.value.replace('}', 'Y -> W\\n}'); t.dispatchEvent(new Event('input'))"""),
    "menu": ("front_door", "effect", """const v = document.querySelectorAll('#drawing .vertex')[0];
        v.dispatchEvent(new KeyboardEvent('keydown', {key: 'Enter', bubbles: true}))"""),
    "about": ("front_door", "effect", "document.getElementById('about').click()"),
}
SHAPES = {
    "light": ({}, list(VIEWS)),
    "dark": ({"dark": True}, ["effect", "rule", "hedge", "biased", "data", "missing", "condition", "contrast", "bounds", "treated", "left", "tests", "paths", "several", "warning", "compare", "fault", "menu"]),
    "phone": ({"width": 400, "height": 860}, ["effect", "form", "hedge", "adjust", "data", "formula", "missing", "condition", "contrast", "bounds", "treated", "paths", "several", "warning", "fault", "menu"]),
    "laptop": ({"width": 1280, "height": 720}, ["effect", "contrast", "paths", "several"]),
    "tablet": ({"width": 900, "height": 1100}, ["effect", "data", "paths"]),
}


def main():
    if sys.argv[1:] == ["tour"]:
        return tour()
    browser.OUT.mkdir(exist_ok=True)
    for shape, (window, names) in SHAPES.items():
        driver = browser.start(**window)
        try:
            for name in names:
                if len(sys.argv) > 1 and f"{shape}-{name}" not in sys.argv[1:] and shape not in sys.argv[1:]:
                    continue
                picture(driver, shape, name)
            if shape == "light" and len(sys.argv) == 1:
                on_paper(driver)
        finally:
            driver.quit()
    print(f"pictures in {browser.OUT.relative_to(TOP)}")


def picture(driver, shape, name):
    graph, card, script = VIEWS[name]
    browser.open_page(driver)
    browser.example(driver, graph)
    driver.execute_script("document.getElementById('tab-' + arguments[0]).click()", card)
    time.sleep(0.4)
    if name == "rule":
        driver.execute_script(VIEWS["derivation"][2])
        time.sleep(0.6)
    driver.execute_script(script)
    time.sleep(0.9)
    path = browser.OUT / f"{shape}-{name}.png"
    if shape == "phone" and name not in ("menu",):
        whole = driver.execute_cdp_cmd("Page.captureScreenshot", {"captureBeyondViewport": True})
        path.write_bytes(base64.b64decode(whole["data"]))
    else:
        driver.save_screenshot(str(path))


def tour():
    """The picture of the README's tour."""
    driver = browser.start(width=1280, height=780)
    try:
        browser.open_page(driver)
        browser.example(driver, "napkin")
        driver.execute_script("document.getElementById('tab-effect').click()")
        time.sleep(0.7)
        driver.save_screenshot(str(TOP / "docs/page.png"))
    finally:
        driver.quit()


def on_paper(driver):
    """The page as it's printed."""
    browser.open_page(driver)
    browser.example(driver, "napkin")
    driver.execute_script("document.getElementById('tab-effect').click()")
    time.sleep(0.7)
    driver.find_element(By.CSS_SELECTOR, "#panel summary[data-key=derivation]").click()
    time.sleep(0.5)
    printed = driver.execute_cdp_cmd("Page.printToPDF", {"printBackground": False})
    (browser.OUT / "printed.pdf").write_bytes(base64.b64decode(printed["data"]))


if __name__ == "__main__":
    main()
