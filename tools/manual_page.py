"""Makes a manual page from docs/MESSAGES.md, so that `man ob0-messages` shows it in a terminal."""
from __future__ import annotations

import re
from collections.abc import Iterator

HEAD = """.\\" made from docs/MESSAGES.md by tools/manual_page.py
.TH OB0-MESSAGES 7 {day} "ob0 {version}" "Messages of ob0"
.SH NAME
ob0\\-messages \\- what each message of ob0 means
.SH DESCRIPTION
"""


def plain(text: str) -> str:
    """Escapes a text for roff, so that nothing in it is a request or an escape."""
    found = text.replace("\\", "\\e").replace("-", "\\-").replace("'", "\\(aq")
    found = re.sub("[^\x00-\x7f]", lambda it: f"\\[u{ord(it[0]):04X}]", found)
    return re.sub(r"(?m)^(?=[.'])", r"\\&", found)


def inline(text: str) -> str:
    """Converts part of a Markdown paragraph to roff. Code and emphasized words become bold, and a link becomes its
    text."""
    text = re.sub(r"\[([^\]]*)\]\([^)]*\)", r"\1", text)
    parts = re.split(r"`([^`]*)`|\*\*([^*]+)\*\*|\*([^*]+)\*", text)
    found = ""
    for at in range(0, len(parts), 4):
        found += plain(parts[at])
        for strong in (it for it in parts[at + 1 : at + 4] if it):
            found += f"\\fB{inline(strong) if '`' in strong else plain(strong)}\\fR"
    return re.sub(r"(?m)^(?=[.'])", r"\\&", found)


def cells_of(line: str) -> list[str]:
    """Splits a row of a Markdown table into its cells."""
    return [it.strip().replace(r"\|", "|") for it in re.split(r"(?<!\\)\|", line)[1:-1]]


def single_rows(row: list[str]) -> list[list[str]]:
    """Splits a row whose first two cells list the same number of code words into one row for each word. The other text
    of the second cell is repeated; the third cell is also repeated, unless it is such a list. Returns any other row
    unchanged."""
    first, second, *more = row
    begin, at, listed = second.rpartition(" at ")
    words, places, cures = (re.split("(?<=`), (?=`)", it) for it in (first, listed, "".join(more[:1])))
    if len(words) != len(places) or not more:
        return [row]
    cures = cures if len(cures) == len(words) and all(it.count("`") == 2 for it in cures) else more[:1] * len(words)
    return [[word, begin + at + place, cure, *more[1:]] for word, place, cure in zip(words, places, cures)]


def table(lines: list[str]) -> Iterator[str]:
    """Yields the rows of a table as paragraphs under their first cells. If the second column's head has code, each of its
    cells continues that head."""
    heads = cells_of(lines[0])
    for first, *cells in (it for line in lines[2:] for it in single_rows(cells_of(line))):
        cells[0] = f"{heads[1]} {cells[0]}" if "`" in heads[1] else cells[0]
        yield f".TP\n{inline(first)}\n"
        yield inline(": ".join(it for it in cells[:2] if it)) + "\n"
        more = "; ".join(f"{head.lower()}: {it}" for head, it in zip(heads[3:], cells[2:]) if it)
        if more:
            yield f"({inline(more)})\n"


def block(lines: list[str]) -> Iterator[str]:
    """Yields the lines of a paragraph, a list, a table or a heading."""
    if lines[0].startswith("|"):
        yield from table(lines)
    elif lines[0].startswith("#"):
        sign, _, title = lines[0].partition(" ")
        yield f".SH {plain(title).upper()}\n" if sign == "##" else f".SS {plain(title)}\n"
        yield from block(lines[1:]) if lines[1:] else []
    elif re.match(r"[-0-9]", lines[0]):
        for it in re.split(r"\n(?=- |\d+\. )", "\n".join(lines)):
            yield f".IP \\(bu 2\n{inline(' '.join(it.split()[1:]))}\n"
    else:
        yield f".PP\n{inline(' '.join(lines))}\n"


def of_messages(page: str, version: str, day: str) -> bytes:
    """Converts the Markdown page `page` to a manual page. Its first heading and its list of contents are left out."""
    found = HEAD.format(version=version, day=day)
    for at, part in enumerate(re.split(r"^```\n(.*?)^```$", page, flags=re.M | re.S)):
        if at % 2:
            found += ".PP\n.nf\n" + "".join(f"    {plain(it)}\n" for it in part.splitlines()) + ".fi\n"
            continue
        for paragraph in re.split(r"\n{2,}", part.strip("\n")):
            if paragraph and not paragraph.startswith(("# ", "Contents:")):
                found += "".join(block(paragraph.splitlines()))
    return re.sub(r"(?m)^(\.S[HS] .*\n)\.PP\n", r"\1", found).replace("DESCRIPTION\n.PP\n", "DESCRIPTION\n").encode()
