"""Which characters of the page's script a section of the trial ran, as V8 counts it."""

import json
import pathlib
import re
import time
import typing

from browser import Browser


class Covered:
    """Begins to count. Each note is of what ran since the one before, and of the seconds since its section began."""

    def __init__(self, browser: Browser) -> None:
        self.browser, self.ended = browser, time.monotonic()
        self.said: dict[str, list[dict[str, object]]] = {}
        browser.cdp("Profiler.enable")
        browser.cdp("Profiler.startPreciseCoverage", callCount=True, detailed=True)

    def note(self, name: str, file: pathlib.Path) -> None:
        told = self.browser.cdp("Profiler.takePreciseCoverage")["result"]
        ran = bytearray()
        for script in told:
            if script["url"].endswith("/ui/"):
                ran = either(ran, counted(script["functions"]))
        if name not in self.said:
            self.began = self.ended
        self.ended = time.monotonic()
        part = {"seconds": round(self.ended - self.began), "ran": [[it.start(), it.end()] for it in re.finditer(b"\1+", ran)]}
        self.said.setdefault(name, []).append(part)
        file.write_text(json.dumps(self.said))


def counted(functions: list[dict[str, typing.Any]]) -> bytearray:
    """Of each character of a script whether it ran. Of ranges one within another the innermost decides."""
    ranges = [(it["startOffset"], it["endOffset"], it["count"]) for each in functions for it in each["ranges"]]
    ran = bytearray(max((end for _, end, _ in ranges), default=0))
    for start, end, count in sorted(ranges, key=lambda it: it[0] - it[1]):
        ran[start:end] = (b"\1" if count else b"\0") * (end - start)
    return ran


def either(one: bytearray, other: bytearray) -> bytearray:
    size = max(len(one), len(other))
    return bytearray(a | b for a, b in zip(one.ljust(size, b"\0"), other.ljust(size, b"\0")))
