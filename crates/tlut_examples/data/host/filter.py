"""Retunes the filter of examples/fir: gives its three coefficients new values, and prints the configuration bits to rewrite.

    PYTHONPATH=. python3 examples/host/filter.py PACK [C0 C1 C2]..

PACK is made by `./tlut map 4 examples/fir/fir.blif examples/fir/fir.par TEMPLATE PACK`. It prints what filter.c prints.
"""

import sys

from tlutflow.faults import Fault
from tlutflow.host import Host


def main(path: str, *coefficients: str) -> None:
    """Sets each three coefficients in turn."""
    with Host(path) as host:
        for place in range(0, len(coefficients) - 2, 3):
            c0, c1, c2 = coefficients[place : place + 3]
            writes = host.set(c0=c0, c1=c1, c2=c2)
            print(f"set {c0} {c1} {c2} writes {len(writes)}" + "".join(f" {address}={bit:d}" for address, bit in writes))


if __name__ == "__main__":
    try:
        main(*sys.argv[1:])
    except Fault as fault:
        sys.exit(f"filter: {fault}")
