"""Makes the pictures of the guide, which a browser takes of the three pages: python3 converters/trials/shots.py"""
import base64
import os
import tempfile

import browser
import pages
import recorded

FOLDER = f"{pages.CONVERTERS}/../docs/operating/pictures"


def shot(shown, path):
    """The bytes of a picture of a page, up to its lists."""
    shown.open(path, 900, 900)
    high = shown.value("document.getElementById('entries').getBoundingClientRect().top + scrollY")
    clip = {"x": 0, "y": 0, "width": 900, "height": high, "scale": 0.65}
    return base64.b64decode(shown.ask("Page.captureScreenshot", format="png", clip=clip, captureBeyondViewport=True)["data"])


def main():
    with tempfile.TemporaryDirectory() as room, browser.Browser() as shown:
        for name in pages.NAMES:
            pages.made_by(pages.CONVERTERS, room, recorded.traces()[name], str(recorded.LAG), "page.html", str(recorded.CAPACITY))
            with open(f"{FOLDER}/{name}.png", "wb") as file:
                file.write(shot(shown, f"{room}/page.html"))
            print(f"{name}.png {os.path.getsize(f'{FOLDER}/{name}.png')}")


main()
