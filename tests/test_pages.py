"""Tests the pages: their links, names outside backticks, the chart of a message's life, the licence, and their
lengths."""
from __future__ import annotations

import os
import re

import common
import prose
import rooms
from harness import TOP, holds, same, test, text_of, tracked

# pages whose names of messages, ends and methods need no backticks on any page
NAMING = ["docs/LANGUAGE.md", "docs/PROTOCOL.md", "docs/MESSAGES.md"]
OTHERS = {"GitHub", "GitLab", "GtkSourceView", "KiB", "LuaSnip", "MiB", "SnipMate", "StdIO", "UltiSnips", "YouCompleteMe", "macOS"}
INNER = re.compile(r"\b[A-Za-z]*[a-z][A-Z]\w*")  # a word with a capital inside
LICENCES = "INSTALL.md#licences"


def pages() -> list[str]:
    """Returns the paths of all Markdown pages."""
    return sorted(it for it in tracked() if it.endswith(".md"))


def without_blocks(page: str) -> str:
    return re.sub(r"^ *```.*?^ *```$", "", page, flags=re.M | re.S)


def anchors_of(page: str) -> set[str]:
    """Returns the anchors of a page's headings, as links cite them."""
    found: set[str] = set()
    for heading in re.findall(r"^#+ (.*)$", without_blocks(page), re.M):
        plain = re.sub(r"\]\([^)]*\)|[`*\[\]]", "", heading).lower()
        name = re.sub(r"[^\w\- ]", "", plain).replace(" ", "-")
        found.add(next(it for it in [name, *(f"{name}-{number}" for number in range(1, 50))] if it not in found))
    return found


def broken_links(page: str, text: str) -> list[str]:
    """Returns the links of a page whose file or heading doesn't exist."""
    broken = []
    for target in re.findall(r"\]\(([^)\s:]+)\)", without_blocks(text)):
        file, _, place = target.partition("#")
        path = os.path.normpath(os.path.join(os.path.dirname(page), file))
        if not os.path.exists(os.path.join(TOP, path)) or (place and place not in anchors_of(text_of(path) if file else text)):
            broken.append(f"{page}: {target}")
    return broken


@test("pages: each link leads to an existing file and to an existing heading")
def links() -> None:
    found = pages()
    holds(len(found) > 30, "few pages were found")
    same([it for page in found for it in broken_links(page, text_of(page))], [], "links that lead nowhere")
    wrong = "[a](README.md#editors), [b](README.md#ends), [c](#words), [d](nowhere.md)\n# Some `words`: all\n"
    same(broken_links("x.md", wrong.replace("words)", "some-words-all)")), ["x.md: README.md#ends", "x.md: nowhere.md"], "of four links")


@test("pages: a word with an inner capital is in backticks, unless the language, the protocol or a product uses it")
def names_in_backticks() -> None:
    known = OTHERS.union(*(INNER.findall(text_of(it)) for it in NAMING))
    wrong = []
    for page in (it for it in prose.files_of("pages") if it.endswith(".md")):
        words = {it for text in prose.paragraphs_of(page) for it in INNER.findall(re.sub(r"<[^>]*>", "", text))}
        wrong += [f"{page}: {it}" for it in sorted(words - known)]
    same(wrong, [], "words that need backticks")
    holds("ExchangeTurn" in INNER.findall("ExchangeTurn on the plugin") and "ExchangeTurn" not in known, "a name of a type would be found")


@test("pages: the chart of a message's life is aligned, and each name in the chart occurs in the crate next to it")
def chart_holds() -> None:
    steps = rooms.steps_of(text_of(os.path.relpath(rooms.PAGE, TOP)))
    holds(len(steps) > 5, "the chart is missing")
    widths = [max(len(it[at]) for it in steps) for at in range(3)]
    for what, name, crate, does in steps:
        line = f"{what:{widths[0]}} ──► {name:{widths[1]}}  {crate:{widths[2]}}  {does}"
        holds(line in text_of(os.path.relpath(rooms.PAGE, TOP)), f"not in its columns: {line}")
        folder = os.path.join(TOP, "crates", crate, "src")
        words = {it for file in os.listdir(folder) for it in re.findall(r"\w+", text_of(os.path.relpath(os.path.join(folder, file), TOP)))}
        holds(name in words, f"{crate} has no {name}")


@test("pages: a page that states the licence also links to the licences of a built program")
def licence_stated() -> None:
    for page in ("README.md", "docs/TEACHING.md"):
        item = common.match_of(r"^- \*\*Licence\*\*(?:.*\n)(?:  .*\n)*", text_of(page), re.M)[0]
        holds("MIT" in item and LICENCES in item, f"{page}: {item}")
    section = text_of("docs/INSTALL.md").partition("### Licences\n")[2].partition("\n#")[0]
    holds("without a notice" in section and "`json`" in section, f"docs/INSTALL.md: {section}")


def words_of(page: str) -> int:
    return len(text_of(page).split())


@test("pages: neither a page nor all pages together have more words than tests/pages.txt allows")
def lengths_held() -> None:
    allowed = {name: int(number) for name, number in (line.split(": ") for line in text_of("tests/pages.txt").splitlines())}
    found = {it: words_of(it) for it in [*pages(), *(f"share/{it}" for it in os.listdir(os.path.join(TOP, "share")) if it.endswith(".1"))]}
    others = allowed.pop("any other page")
    longer = [f"{it}: {count} words" for it, count in found.items() if count > allowed.get(it, others)]
    same(longer, [], "pages that are too long: say it once and shorter, or raise the number and say why in the commit")
    total = allowed.pop("all pages together")
    holds(sum(found.values()) <= total, f"all pages have {sum(found.values())} words, and may have {total}")
    same(sorted(set(allowed) - set(found)), [], "pages of the list that don't exist")
