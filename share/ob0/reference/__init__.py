"""Implements the language a second time, in plain Python, according to docs/LANGUAGE.md. It shares no code with the
program. It is small and slow, and has one file for each layer: scanning, parsing, scopes, types and constants, runs.
Edits, formatting and hover follow docs/PROTOCOL.md. The script ob0-trace runs modules with it. Tests compare the
program with it on random texts: both must report the same diagnostics, with the same places and messages. This tests
the contracts against a second reading of the page. A mistake on the page itself may be in both."""
