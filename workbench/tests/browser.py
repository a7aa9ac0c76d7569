"""A headless Chromium that is clicked through, looked at and measured."""
import os
import time

from selenium import webdriver
from selenium.webdriver.chrome.service import Service
from selenium.webdriver.common.by import By
from selenium.webdriver.common.keys import Keys

# Of each text that is seen: how it stands out from what is behind it, by the rule of WCAG 2 for contrast.
CONTRAST = """
const parse = text => { const m = /rgba?\\(([^)]+)\\)/.exec(text); if (!m) return null; const [r, g, b, a] = m[1].split(/[,\\/ ]+/).filter(Boolean).map(Number); return [r, g, b, a ?? 1]; };
const over = (top, under) => [0, 1, 2].map(i => top[i] * top[3] + under[i] * (1 - top[3])).concat(1);
const light = c => { const [r, g, b] = c.slice(0, 3).map(x => (x /= 255) <= 0.03928 ? x / 12.92 : ((x + 0.055) / 1.055) ** 2.4); return 0.2126 * r + 0.7152 * g + 0.0722 * b; };
const ratio = (a, b) => { const [x, y] = [light(a), light(b)].sort((p, q) => q - p); return (x + 0.05) / (y + 0.05); };
// (what is behind an element, and how much of it is seen, is asked again for all that is in it)
const backs = new Map(), alphas = new Map();
const behind = el => {
  if (!el) return [255, 255, 255, 1];
  if (!backs.has(el)) {
    const rect = el.namespaceURI.endsWith('svg') && el.tagName === 'g' && el.querySelector(':scope > rect'), c = parse(rect ? getComputedStyle(rect).fill : getComputedStyle(el).backgroundColor);
    backs.set(el, !c || !c[3] ? behind(el.parentElement) : c[3] === 1 ? c : over(c, behind(el.parentElement)));
  }
  return backs.get(el);
};
const alphaOf = el => {
  if (el && !alphas.has(el)) alphas.set(el, Number(getComputedStyle(el).opacity) * alphaOf(el.parentElement));
  return el ? alphas.get(el) : 1;
};
const bad = [];
let seen = 0;
const look = (el, text, color) => {
  const box = el.getBoundingClientRect(), style = getComputedStyle(el);
  if (!box.width || !box.height || style.visibility === 'hidden' || el.closest('.unseen, :disabled')) return;
  const alpha = alphaOf(el), back = behind(el), c = parse(color);
  if (!c || !c[3]) return;
  seen++;
  const r = ratio(over([c[0], c[1], c[2], c[3] * alpha], back), back);
  if (r < 4.495) bad.push(`${text.trim().slice(0, 40)} (${el.tagName}.${el.getAttribute('class')}): ${r.toFixed(2)}`);
};
const walker = document.createTreeWalker(document.body, NodeFilter.SHOW_TEXT);
while (walker.nextNode()) {
  const el = walker.currentNode.parentElement, style = getComputedStyle(el);
  if (walker.currentNode.data.trim() && !['SCRIPT', 'STYLE', 'TITLE', 'title', 'OPTION'].includes(el.tagName)) look(el, walker.currentNode.data, el.namespaceURI.endsWith('svg') ? style.fill : style.color);
}
for (const el of document.querySelectorAll('input, textarea, select')) {
  look(el, el.value || el.getAttribute('aria-label') || '', getComputedStyle(el).color);
  if (el.placeholder) look(el, el.placeholder, getComputedStyle(el, '::placeholder').color);
}
return [seen, [...new Set(bad)]];
"""
# What is told by a colour must be told by a sign or a word, too.
COLOURS = """
const bad = [], told = (css, holds) => document.querySelectorAll(css).forEach(e => { if (e.getBoundingClientRect().width && !holds(e)) bad.push(css + ': ' + e.textContent.slice(0, 40)); });
told('button.now', e => e.getAttribute('aria-pressed') === 'true' || e.hasAttribute('aria-current'));
told('.filter.now, .mark.now', e => e.textContent.includes('✓'));
told('tr.idle', e => /at rest|not used/.test(e.textContent));
told('.tile-button.lost', e => /never/.test(e.textContent));
told('.dot, .badge', e => /[✗●]/.test(e.textContent));
told('.gutter .bad', e => e.textContent.includes('✗'));
told('.verdict.bad', e => e.textContent.includes('✗'));
told('.verdict.good', e => e.textContent.includes('✓'));
told('.option.at', e => e.getAttribute('aria-selected') === 'true');
told('[aria-invalid=true].edit', e => getComputedStyle(e).borderStyle === 'dashed');
return bad;
"""
ROLES = {
    "button",
    "textbox",
    "searchbox",
    "combobox",
    "checkbox",
    "link",
    "spinbutton",
    "option",
    "listbox",
    "radio",
    "tab",
    "menuitem",
    "switch",
    "slider",
    "dialog",
    "alertdialog",
    "region",
    "group",
    "navigation",
    "complementary",
}


class Browser:
    """A window of a browser."""

    def __init__(self, chromium, driver, shots=None, only=None, folder=None):
        options = webdriver.ChromeOptions()
        options.binary_location = chromium
        for word in (
            "--headless=new",
            "--no-sandbox",
            "--disable-gpu",
            "--hide-scrollbars",
            "--disable-dev-shm-usage",
            "--force-device-scale-factor=1",
            "--disable-lcd-text",
            "--lang=en",
        ):
            options.add_argument(word)
        options.set_capability("goog:loggingPrefs", {"browser": "ALL"})
        if folder:
            options.add_experimental_option(
                "prefs",
                {"download.default_directory": folder, "profile.default_content_setting_values.automatic_downloads": 1},
            )
        self.it, self.shots = webdriver.Chrome(options=options, service=Service(driver)), shots
        self.it.set_script_timeout(120)
        self.only = only
        self.size(1280, 900)

    def size(self, width, height, theme=None):
        self.it.execute_cdp_cmd(
            "Emulation.setDeviceMetricsOverride",
            {"width": width, "height": height, "deviceScaleFactor": 1, "mobile": False},
        )
        if theme:
            self.js("document.documentElement.dataset.theme = arguments[0]", theme)
        time.sleep(0.06)

    def js(self, code, *words):
        return self.it.execute_script(code, *words)

    def settle(self, seconds=40):
        """Until nothing is being worked at, twice in a row."""
        calm, end = 0, time.time() + seconds
        while calm < 3 and time.time() < end:
            time.sleep(0.015)
            calm = (
                calm + 1
                if self.js("const s = document.getElementById('state'); return s && !s.classList.contains('busy')")
                else 0
            )
        if calm < 3:
            raise RuntimeError("it doesn't settle: " + self.text("body")[:300])

    def find(self, css):
        return self.it.find_elements(By.CSS_SELECTOR, css)

    def one(self, css):
        found = self.find(css)
        if not found:
            raise RuntimeError("nothing is " + css)
        return found[0]

    def click(self, css, text=None):
        for it in self.find(css):
            if text is None or text in it.text:
                self.js("arguments[0].scrollIntoView({block: 'center'})", it)
                it.click()
                return self.settle()
        raise RuntimeError("nothing is %s with %r" % (css, text))

    def pick(self, words):
        """Types into the open list, and takes what it finds first."""
        self.one(".picker input").send_keys(words, Keys.ENTER)
        self.settle()

    def write(self, css, text, *keys):
        """Writes into a field, over what stands there."""
        field = self.one(css)
        field.send_keys(Keys.CONTROL, "a")
        field.send_keys(text, *keys)
        self.settle()

    def text(self, css):
        return self.js(
            "return [...document.querySelectorAll(arguments[0])].map(e => e.innerText ?? e.textContent).join('\\n')",
            css,
        )

    def said(self):
        """The last message, also where it is shown no more."""
        return self.js("return document.getElementById('toasts').dataset.said || ''")

    def keys(self, *keys):
        webdriver.ActionChains(self.it).send_keys(*keys).perform()
        self.settle()

    def chord(self, *keys):
        chain = webdriver.ActionChains(self.it)
        for key in keys[:-1]:
            chain.key_down(key)
        chain.send_keys(keys[-1])
        for key in keys[:-1]:
            chain.key_up(key)
        chain.perform()
        self.settle()

    def focus(self):
        return self.js("const e = document.activeElement; return e && (e.id || e.dataset.key || e.tagName)")

    def contrast(self):
        """How many texts were looked at, and those that stand out too little."""
        return self.js(CONTRAST)

    def told_by_colour(self):
        return self.js(COLOURS)

    def nameless(self):
        """How many controls the tree for who can't see the page has, and those without a name."""
        nodes = [
            n
            for n in self.it.execute_cdp_cmd("Accessibility.getFullAXTree", {})["nodes"]
            if not n.get("ignored") and n.get("role", {}).get("value") in ROLES
        ]
        return len(nodes), [
            n["role"]["value"]
            for n in nodes
            if not str(n.get("name", {}).get("value", "")).strip() and n["role"]["value"] not in ("group", "region")
        ]

    def overflow(self):
        """By how much the page is wider than the window."""
        return self.js("return document.documentElement.scrollWidth - innerWidth")

    def spilt(self):
        """The boxes whose content is wider than they are."""
        return self.js(
            """return [...document.querySelectorAll('.side, .panel, .verdict, .want, .sentence, header.table, .card, .opts')]
          .filter(e => e.scrollWidth > e.clientWidth + 1 && getComputedStyle(e).overflowX === 'visible').map(e => e.className + ' ' + e.textContent.slice(0, 60))"""
        )

    def unreached(self):
        """How many controls are seen, and those that the Tab key doesn't come to."""
        self.js(
            """window.tabbed = new Set(); 
          document.addEventListener('focusin', e => window.tabbed.add(e.target)); document.querySelector('header button').focus();"""
        )
        wanted = """[...document.querySelectorAll('button, input, select, textarea, summary, [role=button]')].filter(e => !e.disabled && e.checkVisibility({ visibilityProperty: true }))"""
        count = self.js("return %s.length" % wanted)
        for _ in range(0, count + 20, 20):
            webdriver.ActionChains(self.it).send_keys(*[Keys.TAB] * 20).perform()
        return count, self.js(
            "return %s.filter(e => !window.tabbed.has(e)).map(e => e.outerHTML.slice(0, 120))" % wanted
        )

    def shot(self, name):
        if self.shots and (self.only is None or name in self.only):
            time.sleep(0.15)
            self.it.save_screenshot(os.path.join(self.shots, name + ".png"))

    def faults(self):
        """What the browser complained of."""
        return [x["message"] for x in self.it.get_log("browser") if x["level"] in ("SEVERE", "WARNING")]
