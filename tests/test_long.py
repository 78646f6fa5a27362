"""Tests the server with conversations of random changes and questions. (`make faults` runs longer ones.)"""
from __future__ import annotations

import long_conversation
import several_documents
from harness import test


@test("long: in 1,500 changes and requests, each text's diagnostics equal `check`'s, and memory doesn't keep growing")
def talk() -> None:
    long_conversation.converse(1500, seed=1)


@test("long: each answer in 800 messages about several documents equals a new server's answer")
def several() -> None:
    several_documents.converse(800, seed=1)
