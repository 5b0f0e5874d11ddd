"""The blocks of the pages, for the tests that run them."""
import glob
import os
import re

from lib.places import ROOT

PAGES = [os.path.relpath(path, ROOT) for part in ("*.md", "docs/*.md") for path in sorted(glob.glob(os.path.join(ROOT, part)))]


def text_of(page):
    with open(os.path.join(ROOT, page), encoding="utf-8") as file:
        return file.read()


def blocks_in(text):
    """What is between fences, in order."""
    return re.findall(r"^```\n(.*?)^```\n", text, re.DOTALL | re.MULTILINE)


def chapters(page):
    """The title of each chapter with its blocks; what is before the first has no title."""
    head, *parts = re.split(r"^## (.+)\n", text_of(page), flags=re.MULTILINE)
    return [("", blocks_in(head)), *((title, blocks_in(text)) for title, text in zip(parts[::2], parts[1::2]))]


def blocks(page, chapter):
    """The blocks of a chapter."""
    (found,) = [there for title, there in chapters(page) if title == chapter]
    return found


def block(page, chapter, part):
    """The one block of a chapter that has this text."""
    (found,) = [text for text in blocks(page, chapter) if part in text]
    return found


def commands(text):
    """The commands of a block as a script: lines after `$ `, and those that go on after `> `, or all lines if none is marked."""
    marked = [line[2:] for line in text.splitlines() if line.startswith(("$ ", "> "))]
    return "".join(line + "\n" for line in marked) if text.startswith("$ ") else text


def printed(text):
    """What a block says that its commands print."""
    return "".join(line + "\n" for line in text.splitlines() if not line.startswith(("$ ", "> ")))
