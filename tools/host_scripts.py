#!/usr/bin/env python3
"""Plays random scripts on random packs by `tlut bits` and by the library for host programs, and compares each line.

    python3 tools/host_scripts.py [COUNT]

Outside the gate. Call `./tlut` once before, to build the program, and build the library by `make -C include`. A pack has up to 12
parameters, 60 AND nodes and 80 bits, in one of the two versions of the format; a script has up to 20 events, with upsets, scrubs and images.
Each pack is also played at a limited rate: what the ticks write after each ask is compared with the differences between the
configurations, which `tlut bits` prints. The last line is `N passed, M failed`, and the exit status is 1 if M isn't 0.
"""

from __future__ import annotations

import os
import random
import subprocess
import sys
import tempfile
from concurrent.futures import ThreadPoolExecutor

import shared

sys.path.insert(0, shared.TOP)

from pack_bytes import Pack, encode
from tlutflow.host import Host, PacedHost
from tlutflow.host_player import played
from tlutflow.runs.script import Event, parse_script

COUNT = 5_000
SEED = 20_000


def pack_of(chosen: random.Random) -> Pack:
    """A random pack: names and values of parameters, pairs of nodes, literals of bits."""
    parameters = [(b"p%d" % place, chosen.randint(0, 1)) for place in range(chosen.randint(0, 12))]
    first = 1 + len(parameters)
    pairs: list[tuple[int, int]] = []
    for index in range(first, first + chosen.randint(0, 60)):
        low, high = sorted(chosen.randrange(2, 2 * index) for _ in range(2)) if index > 2 else (0, 0)
        if low // 2 == high // 2 or (low, high) in pairs:
            break
        pairs.append((low, high))
    return parameters, pairs, [chosen.randrange(2 * (first + len(pairs))) for _ in range(chosen.randint(0, 80))]


def event_of(parameters: list[tuple[bytes, int]], bits: list[int], chosen: random.Random) -> str:
    """A random line of a script."""
    word = chosen.choice(("set", "set", "set", "set", "upset", "scrub", "image"))
    if word == "set" and parameters:
        names = chosen.sample([name.decode() for name, _ in parameters], chosen.randint(1, len(parameters)))
        return " ".join(["set", *(f"{name}={chosen.randint(0, 1)}" for name in names)])
    if word == "upset" and bits:
        return f"upset {chosen.randrange(len(bits))}"
    return "image" if word == "image" else "scrub"


def paced(path: str, rate: int, events: list[Event]) -> bool:
    """The configurations at which asks arrive, by ticks; each tick writes at most `rate` bits."""
    with PacedHost(path, rate) as device, Host(path) as host:
        config = host.image
        for event in (it for it in events if it.word == "set"):
            waiting = device.ask_parameters(event.values)
            host.set_parameters(event.values)
            left = [(place, bit) for place, (bit, other) in enumerate(zip(host.image, config)) if bit != other]
            if waiting != len(left):
                return False
            while left and not device.tick():
                if device.writes != left[:rate]:
                    return False
                for address, bit in device.writes:
                    config[address] = bit
                left = left[rate:]
            if config != host.image or not device.tick() or device.writes:
                return False
    return True


def is_same(seed: int, room: str) -> bool:
    """Whether the library prints what `tlut bits` prints, on the pack and the script of this number."""
    chosen = random.Random(seed)
    pack = pack_of(chosen)
    text = "".join(event_of(pack[0], pack[2], chosen) + "\n" for _ in range(chosen.randint(0, 20)))
    path = f"{room}/{seed}.ppc"
    with open(path, "wb") as file:
        file.write(encode(pack, chosen.choice((1, 2))))
    with open(f"{room}/{seed}.scr", "w", encoding="ascii") as file:
        file.write(text)
    ran = subprocess.run([shared.PROGRAM, "bits", path, f"{room}/{seed}.scr"], capture_output=True, text=True, check=False)
    events = parse_script(text, "script", [])
    with Host(path) as host:
        lines = "".join(f"{line}\n" for line in played(host, events))
    is_well = ran.returncode == 0 and ran.stdout == lines and paced(path, chosen.choice((1, 2, 3, 7, 100)), events)
    os.remove(path)
    if not is_well:
        print(f"seed {seed}: {text!r}\n{ran.stdout}{ran.stderr}but by the library\n{lines}")
    return is_well


def main() -> bool:
    parser = shared.words(__doc__)
    parser.add_argument("count", metavar="COUNT", nargs="?", type=int, default=COUNT, help=f"how many packs (default: {COUNT})")
    count: int = parser.parse_args().count
    with tempfile.TemporaryDirectory() as room, ThreadPoolExecutor(2) as pool:
        passed = sum(pool.map(lambda seed: is_same(seed, room), range(SEED, SEED + count)))
    print(f"{passed} passed, {count - passed} failed")
    return passed != count


if __name__ == "__main__":
    sys.exit(main())
