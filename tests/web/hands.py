"""The page in a browser, as hands and eyes have it: controls, files that are dropped, what is saved, drawn and said."""
import json
import os

import chromium
import engine
import pytest
from engine import DROPOUTS, HINTED
from needs import left_out

# Sets a control, and tells the page.
CHANGE_SCRIPT = """{
  const it = document.getElementById('%s'), value = %s;
  it.%s = value;
  if (it.%s !== value) throw new Error(`${it.id} can't have ${value}`);
  it.dispatchEvent(new Event('%s', { bubbles: true }));
}"""
TRIES = 3  # clicks for a download: Chromium was seen to lose one of some hundred


class Page:
    """The page of a folder of modules, in a browser. Files go to `folder`; pictures of the page are kept in `pictures`, if it is
    named."""

    def __init__(self, modules, folder, pictures):
        path = chromium.installed() or left_out("chromium")
        self.folder, self.pictures = str(folder), pictures
        self.path, self.module = (os.path.join(modules, it) for it in ("mkstrike.html", "mkstrike.wasm"))
        try:
            self.browser = chromium.Browser(path, "--window-size=1280,1000")
        except (chromium.Failed, OSError) as fault:
            pytest.skip("Chromium does not start: %s" % fault)
        self.saved = os.path.join(self.folder, "saved")
        os.makedirs(self.saved)
        self.browser.save_in(self.saved)

    def put(self, name, data):
        """The path of a new file with these bytes."""
        return engine.put(self.folder, name, data)

    def open(self, fragment=""):
        """Opens the page as a file, and waits until the sample font is drawn."""
        self.browser.events.clear()
        self.browser.open("file://" + self.path + fragment)
        self.browser.until("document.body.dataset.drawn", "drawing the sample font")
        self.browser.until("document.body.dataset.listed === '95'", "listing the characters of the sample font")

    def picture(self, name, whole=False):
        """Keeps a picture of the page, if there is a folder for them."""
        if self.pictures:
            os.makedirs(self.pictures, exist_ok=True)
            self.browser.picture(os.path.join(self.pictures, name + ".png"), whole)

    def text_of(self, selector):
        """The text of an element, without what is hidden."""
        return self.browser.evaluate("document.querySelector(%s).innerText" % json.dumps(selector))

    def value_of(self, control):
        return self.browser.evaluate("document.getElementById('%s').value" % control)

    def drawn_after(self, act, what, seconds=30):
        """Does something, and waits until the page has drawn anew."""
        before = json.dumps(self.browser.evaluate("document.body.dataset.drawn"))
        act()
        self.browser.until("document.body.dataset.drawn !== %s" % before, what, seconds)

    def change(self, control, value, event="input"):
        """Sets a control, which must have that value, as a hand does."""
        field = "checked" if isinstance(value, bool) else "value"
        self.browser.evaluate(CHANGE_SCRIPT % (control, json.dumps(value), field, field, event))

    def set(self, control, value, event="input", seconds=30):
        """The same of a control after which the page draws anew."""
        self.drawn_after(lambda: self.change(control, value, event), "drawing after %s" % control, seconds)

    def set_mode(self, mode):
        for control, value in (("hinted", bool(mode & HINTED)), ("dropout", DROPOUTS[mode & ~HINTED])):
            if self.browser.evaluate("((it) => it.type === 'checkbox' ? it.checked : it.value)(document.getElementById('%s'))"
                                     % control) != value:
                self.set(control, value)

    def seen(self, canvas="main"):
        """A canvas as a text."""
        return self.browser.evaluate("document.getElementById('%s').toDataURL()" % canvas)

    def drop(self, path):
        self.drawn_after(lambda: self.browser.drop(path), "drawing %s" % os.path.basename(path))

    def dropped(self, name, data):
        """Drops a file with these bytes; returns its path."""
        path = self.put(name, data)
        self.drop(path)
        return path

    def save(self, what):
        """Saves, and returns the name and the bytes of the file; or why it is not saved, and nothing."""
        for _ in range(TRIES):
            self.browser.forget_downloads()
            self.browser.evaluate("delete document.body.dataset.saved; document.querySelector('[data-save=%s]').click()" % what)
            name = self.browser.until("document.body.dataset.saved", "saving %s" % what)
            if name.startswith("refused "):
                return name[8:], None
            found = self.browser.downloaded(self.saved)
            if found and found[0] != name:
                raise AssertionError("%s was saved as %s" % (name, found[0]))
            if found:
                return found
        raise AssertionError("%s was not saved after %d clicks; Chromium told %s" % (name, TRIES, self.browser.downloads()))

    def compare(self, path, ppem, mode, chars, face=None):
        """Saves a strike, which must be the program's by the same rule for refused characters; returns whether both refuse it. One
        without a glyph is not saved."""
        name = self.value_of("name")
        text, line, status = engine.answer(path, ppem, mode, chars, name, face, self.value_of("rule"))
        saved, data = self.save("bdf")
        where = "%s at %d, mode %d" % (os.path.basename(path), ppem, mode)
        if b"\nCHARS 0\n" in text and (saved, data) == ("The strike has no glyph.", None):
            return False
        if not status and (data != text or saved != name + ".bdf"):
            raise AssertionError("%s: the saved strike %s is not the program's" % (where, saved))
        if status and (data is not None or not saved.startswith(line + ": ")
                       or saved.replace("`", "") not in self.text_of("#saved")):
            raise AssertionError("%s: the page says %r, and %r is due" % (where, self.text_of("#saved"), line))
        return bool(status)
