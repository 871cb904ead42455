"""The page in a browser, and what a user does there."""
import base64
import json
from pathlib import Path

STEPS = Path(__file__).with_name("page_steps.js").read_text(encoding="utf-8")


class OnPage:
    """The page, opened in a browser. The calls are those of page_steps.js."""

    def __init__(self, browser, page, before=""):
        self.browser = browser
        browser.open(page.resolve().as_uri(), before)

    def do(self, call):
        return self.browser.run(f"{STEPS}\nreturn await ({call});")

    def drop(self, files):
        return self.do(f"drop({json.dumps([[name, base64.b64encode(data).decode()] for name, data in files.items()])})")

    def choose(self, **fields):
        for name, value in fields.items():
            self.do(f"choose({json.dumps(name)}, {json.dumps(value)})")

    def compute(self):
        return self.do("compute()")
