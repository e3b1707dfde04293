"""tools/page in the browsers that are installed: what a person does at the page, and what has to come of it.

The page is made of what stands here, over the module of the released one."""
import os
import sys
import tempfile
import unittest

from common import TOOLS

sys.path.insert(0, os.path.join(TOOLS, "page"))
import browser
import making
import trials


class InBrowser:
    """The trials in one browser."""
    kind = None

    @classmethod
    def setUpClass(cls):
        if not cls.kind.program():
            raise unittest.SkipTest(f"{cls.kind.__name__} isn't installed")
        folder = tempfile.TemporaryDirectory(prefix="uicc-page-")
        cls.addClassCleanup(folder.cleanup)
        cls.page = os.path.join(folder.name, "index.html")
        with open(cls.page, "w", encoding="utf-8") as text:
            text.write(making.page_of(making.released_module(), "a page to be tried"))
        cls.browser = cls.enterClassContext(cls.kind())

    def setUp(self):
        self.browser.size(*trials.WIDE)
        self.browser.open(self.page)
        self.browser.wait("uicc.played")

    def tried(self, trial):
        try:
            self.assertTrue(trial(self.browser))
        except trials.Wrong as fault:
            self.fail(fault)


def test_of(trial):
    def test(self):
        self.tried(trial)
    test.__doc__ = trial.__doc__
    return test


for one in trials.ALL:
    setattr(InBrowser, f"test_{one.__name__}", test_of(one))


class InChromium(InBrowser, unittest.TestCase):
    kind = browser.Chromium


class InFirefox(InBrowser, unittest.TestCase):
    kind = browser.Firefox


if __name__ == "__main__":
    unittest.main()
