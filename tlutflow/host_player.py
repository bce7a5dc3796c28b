"""Scripts of `tlut bits` by the library for host programs, with the lines that `tlut bits` prints."""

from __future__ import annotations

from collections.abc import Iterator

from tlutflow.faults import Fault
from tlutflow.host import Host
from tlutflow.runs.script import Event, bits_text


def played(host: Host, events: list[Event]) -> Iterator[str]:
    """The header line, and the line of each event once it is played."""
    yield f"bits {host.bits}"
    for event in events:
        yield line_of(host, event)


def line_of(host: Host, event: Event) -> str:
    """Plays an event, and returns its line."""
    if event.word == "set":
        return writes_line("set", host.set_parameters(event.values))
    if event.word == "scrub":
        return writes_line("scrub", host.scrub())
    if event.word == "upset":
        return "upset" + "".join(f" {address}={bit:d}" for address, bit in host.upset(event.address))
    if event.word == "image":
        return f"image {bits_text([int(bit) for bit in host.image])}"
    raise Fault(f"a script on a pack has no {event.word}")


def writes_line(word: str, writes: list[tuple[int, bool]]) -> str:
    """The line of an event with its writes."""
    return f"{word} {len(writes)}" + "".join(f" {address}={bit:d}" for address, bit in writes)
