"""Steps that run again only if what they read has changed.

A record in the folder has for each step the checksum of its arguments and of the files that it read, and those of the files that it wrote.
"""

from __future__ import annotations

import hashlib
import json
import os
import sys
import threading
import time
from typing import Any, Callable

from tlutflow.faults import Fault
from tlutflow.patience import patience
from tlutflow.text import write_text

RECORD = "build.json"
# Raised where the same words make other files than before.
FORMAT = "1"


def checksum(path: str) -> str:
    """The checksum of a file; empty if there is no file."""
    try:
        with open(path, "rb") as file:
            return hashlib.sha256(file.read()).hexdigest()
    except OSError:
        return ""


class Steps:
    """The steps of a folder and what is known of them."""

    def __init__(self, folder: str, prog: str, again: bool = False):
        self.folder, self.prog = folder, prog
        self.lock = threading.Lock()
        self.known: dict[str, Any] = {} if again else self.read()

    def read(self) -> dict[str, Any]:
        """The record of the folder; empty if none can be read."""
        try:
            with open(f"{self.folder}/{RECORD}", encoding="utf-8") as file:
                found = json.load(file)
            return found if isinstance(found, dict) else {}
        except (OSError, ValueError, RecursionError):
            return {}

    def make(self, name: str, words: list[Any], reads: list[str], writes: list[str], work: Callable[[], Any]) -> Any:
        """Runs a step unless it would do the same as before. Returns the result of the work, which JSON can hold."""
        key = hashlib.sha256(json.dumps([FORMAT, words, [[path, checksum(path)] for path in reads]]).encode()).hexdigest()
        known = self.known.get(name)
        if isinstance(known, dict) and known.get("key") == key and known.get("files") == self.written(writes) and "" not in known["files"].values() and "result" in known:
            self.say(f"{name}: as before")
            return known["result"]
        begun = time.monotonic()
        with patience(self.prog, name):
            result = work()
        files = self.written(writes)
        for path, found in files.items():
            if not found:
                raise Fault(f"{path} wasn't written")
        with self.lock:
            self.known[name] = {"key": key, "files": files, "result": result}
            write_text(f"{self.folder}/{RECORD}", json.dumps(self.known, indent=1) + "\n")
        self.say(f"{name}: {time.monotonic() - begun:.1f} s")
        return result

    def written(self, paths: list[str]) -> dict[str, str]:
        """The checksums of files, by their names in the folder."""
        return {os.path.relpath(path, self.folder): checksum(path) for path in paths}

    def say(self, line: str) -> None:
        """Says on standard error how far it is."""
        print(f"{self.prog}: {line}", file=sys.stderr, flush=True)
