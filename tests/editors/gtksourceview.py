"""Prints, as JSON, the styles that GtkSourceView 4 gives the words of a file. The system's Python runs this script,
because it has the bindings of GtkSourceView. No screen is needed."""
from __future__ import annotations

import json
import re
import sys

import gi

gi.require_version("GtkSource", "4")
from gi.repository import GtkSource  # noqa: E402

def main() -> None:
    with open(sys.argv[1], encoding="utf-8") as file:
        text = file.read()
    manager = GtkSource.LanguageManager.get_default()
    language = manager.guess_language(sys.argv[1], None)
    buffer = GtkSource.Buffer()
    buffer.set_language(language)
    buffer.set_text(text)
    buffer.ensure_highlight(buffer.get_start_iter(), buffer.get_end_iter())
    styles = {}
    for word in re.findall(r"[A-Za-z0-9]+", text):
        found = re.search(rf"\b{word}\b", text)
        at = buffer.get_iter_at_offset(found.start() if found else 0)
        colours = [it.get_property("foreground-rgba").to_string() for it in at.get_tags() if it.get_property("foreground-set")]
        styles[word] = [*buffer.get_context_classes_at_iter(at), *colours]
    print(json.dumps({"language": language and language.get_id(), "styles": styles}))


main()
