"""Tests the wording of pages, comments and printed texts: the counts in tests/prose.txt may only fall. (tools/prose.py
does the counting.)"""
from __future__ import annotations

import os
import tempfile
from collections import Counter

import prose
from harness import same, test
from homes import write

PAGE = """# Of a heading that is there

Where it rains, the code
alone is taken. Of a text what is left, too.

    indented code where it is

| A cell that ends in | another of its own |
|---|---|
| `where it is` | mostly |

```
where the block is
```

- {long}
"""
COMMENTS = """/// What is wrong with a text.
/// It mends nothing.
fn first() {} // where it isn't a comment of its own

/// What is wrong is what is reported.

/// How does it end?

-- whether a byte is white space
"""
LONG = " ".join(["word"] * 36)
SCRIPT = '''"""What is left of a text."""
# the rest is taken
# from nothing

alone = f"where it {alone} mends", "alone", b"alone is taken"  # a value of its own
'''


@test("prose: no file contains a phrase more often than tests/prose.txt allows, and no page gains a long sentence")
def none_rose() -> None:
    same(prose.risen(), [], "what rose: word it in another way (`tools/prose.py FILE` shows each place)")


@test("prose: tools/prose.py finds phrases, long sentences and comments without a verb, and ignores code")
def found() -> None:
    with tempfile.TemporaryDirectory() as room:
        page, code = os.path.join(room, "page.md"), os.path.join(room, "code.rt")
        write(page, PAGE.replace("{long}", f"{LONG}. {LONG} {LONG}."))
        write(code, COMMENTS)
        names = ["where (if)", "alone", "is taken", "Of a ..", "what is left", ".., too", "of its own", "mostly"]
        same(+prose.phrases_in(prose.paragraphs_of(page)), Counter(names), "the phrases of a page")
        same([len(it.split()) for it in prose.long_sentences(page)], [36, 72], "the words of its long sentences")
        comments = prose.comments_of(code)
        same([prose.is_headless(it) for it in comments], [True, False, False], str(comments))
        same(+prose.phrases_in(comments), Counter({"what is left": 3, "mend": 1}), "the phrases of comments")


@test("prose: tools/prose.py reads comments and texts of Python, all lines of other files, and first lines of mutants")
def found_elsewhere() -> None:
    with tempfile.TemporaryDirectory() as room:
        script, completion, mutant = (os.path.join(room, it) for it in ("a.py", "ob0.fish", "a.edit"))
        write(script, SCRIPT)
        write(completion, "# what is wrong\ncomplete -d 'from 0 on'\n# with\n")
        write(mutant, "# Ends where it is empty: refused by the clause of `alone`.\nold: alone\n")
        texts = ["What is left of a text.", "where it `code` mends", "the rest is taken from nothing", "a value of its own"]
        same(sorted(prose.texts_of("Python", script)), sorted(texts), "the texts of a script")
        same(prose.texts_of("files", completion), ["what is wrong complete -d 'from 0 on' with"], "the text of a file")
        same(prose.texts_of("mutants", room), ["Ends where it is empty: refused by the clause of `code`."], "the texts of mutants")
        kinds = {kind: len(prose.files_of(kind)) for kind in prose.KINDS}
        same([kind for kind, count in kinds.items() if count < 30], [], f"kinds with few files: {kinds}")
