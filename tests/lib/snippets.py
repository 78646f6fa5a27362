"""Reads the code blocks of the repository's Markdown pages, so that the tests use exactly what readers are told to
type."""
from __future__ import annotations

import os
import re

from harness import TOP

FENCED = re.compile(r"^```(\w*)\n(.*?)^```$", re.M | re.S)


def fenced(page: str) -> list[tuple[str, str]]:
    """Returns the code blocks of a page, as pairs of a language and a text."""
    with open(os.path.join(TOP, page), encoding="utf-8") as file:
        return FENCED.findall(file.read())


def snippets(editor: str, language: str) -> list[str]:
    """Returns the code blocks in this language on an editor's page."""
    return [text for name, text in fenced(os.path.join("editors", editor, "README.md")) if name == language]
