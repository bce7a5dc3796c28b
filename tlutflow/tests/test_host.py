"""The library for host programs, through Python. Left out where it isn't built (docs/host.md)."""

import _ctypes
import gc
import os
import random
import tempfile
import unittest

from tlutflow.faults import Fault
from tlutflow.host import Host, PacedHost
from tlutflow.host_calls import FUNCTIONS, LIBRARY
from tlutflow.host_player import played
from tlutflow.pack import Pack, read_pack
from tlutflow.runs.script import parse_script
from tlutflow.tests.helpers import DATA, MUX_PACK, MUX_PACK_1, TOP

# `coder_version1` is `coder` in version 1 of the format, the others are in version 2.
PACKS = ("fir", "coder", "coder_version1", "matcher")


def differences(old: list[int], new: list[int]) -> list[tuple[int, bool]]:
    """The writes from one configuration to another."""
    return [(address, bool(bit)) for address, bit in enumerate(new) if bit != old[address]]


@unittest.skipUnless(os.path.exists(LIBRARY), "the library isn't built")
class HostTest(unittest.TestCase):
    def test_random_changes(self) -> None:
        """Each change makes the writes that the pack's functions say."""
        for name in PACKS:
            pack = read_pack(f"{DATA}/{name}.ppc")
            with Host(f"{DATA}/{name}.ppc") as host:
                self.play(host, pack, random.Random(name))

    def play(self, host: Host, pack: Pack, chosen: random.Random) -> None:
        values = dict(pack.parameters)
        self.assertEqual(list(host.parameters), list(values))
        self.assertEqual(host.image, [bool(it) for it in pack.configuration(values)])
        self.assertEqual(host.writes, [])
        for _ in range(200):
            taken = chosen.sample(list(values), chosen.randint(0, len(values)))
            given = {it: chosen.randint(0, 1) for it in taken}
            before = pack.configuration(values)
            values.update(given)
            after = pack.configuration(values)
            self.assertEqual(host.set(*(f"{it}={bit}" for it, bit in given.items())), differences(before, after))
            self.assertEqual(host.values, {it: bool(bit) for it, bit in values.items()})
            self.assertEqual(host.image, [bool(it) for it in after])

    def test_upsets(self) -> None:
        """An upset bit stays until a scrub."""
        with Host(f"{DATA}/fir.ppc") as host:
            right = host.image
            self.assertEqual(host.upset(7), [(7, not right[7])])
            self.assertEqual(host.upset(9), [(9, not right[9])])
            self.assertEqual([at for at, bit in enumerate(host.image) if bit != right[at]], [7, 9])
            self.assertEqual(host.scrub(), [(7, right[7]), (9, right[9])])
            self.assertEqual(host.scrub(), [])
            with self.assertRaisesRegex(Fault, "no such parameter or address"):
                host.upset(len(right))
            self.assertEqual(host.image, right)

    def test_limited_rate(self) -> None:
        """The ticks after an ask write the bits that differ, seven at a time."""
        pack, chosen = read_pack(f"{DATA}/fir.ppc"), random.Random(7)
        values = dict(pack.parameters)
        with PacedHost(f"{DATA}/fir.ppc", rate=7) as device:
            self.assertEqual(device.writes, [])
            for _ in range(50):
                given = {it: chosen.randint(0, 1) for it in chosen.sample(list(values), 5)}
                before = pack.configuration(values)
                values.update(given)
                left = differences(before, pack.configuration(values))
                self.assertEqual(device.ask(*(f"{it}={bit}" for it, bit in given.items())), len(left))
                while not device.tick():
                    self.assertEqual(device.writes, left[:7])
                    left = left[7:]
                self.assertEqual((left, device.writes), ([], []))
        with self.assertRaisesRegex(Fault, "the host is closed"):
            device.tick()

    def test_scripts(self) -> None:
        """A script's lines are those of `tlut bits`."""
        script = "set c1[0]=1 c0[2]=0\nupset 3\nimage\nscrub\nset c1[0]=0\n"
        with Host(f"{DATA}/fir.ppc") as host:
            right = [int(bit) for bit in host.image]
            lines = list(played(host, parse_script(script, "script", [])))
        self.assertEqual(lines[0], f"bits {len(right)}")
        self.assertEqual([line.split()[0] for line in lines[1:]], ["set", "upset", "image", "scrub", "set"])
        self.assertEqual(lines[4], f"scrub 1 3={1 - int(lines[2][-1])}")

    def test_buses(self) -> None:
        """A bus takes a number."""
        with Host(f"{DATA}/fir.ppc") as host:
            host.set(c1=7)
            self.assertEqual([host.values[f"c1[{it}]"] for it in range(3)], [True] * 3)

    def test_closed(self) -> None:
        """A closed host refuses calls, and is closed twice without harm."""
        host = Host(f"{DATA}/fir.ppc")
        host.close()
        host.close()
        for call in (host.scrub, lambda: host.upset(0), lambda: host.set(c0=1), lambda: host.image, lambda: host.writes):
            with self.assertRaisesRegex(Fault, "the host is closed"):
                call()

    def test_refused(self) -> None:
        """Each beginning of a pack is refused with the rule and the offset."""
        for name in ("coder", "coder_version1"):
            with open(f"{DATA}/{name}.ppc", "rb") as file:
                whole = file.read()
            for length in range(len(whole)):
                with tempfile.NamedTemporaryFile() as file:
                    file.write(whole[:length])
                    file.flush()
                    with self.assertRaisesRegex(Fault, "not a pack: K3 at byte"):
                        Host(file.name)

    def test_versions(self) -> None:
        """The pack of docs/formats.md is the same host in both versions: its bits are 0, p, not p and 1."""
        for data in (MUX_PACK, MUX_PACK_1):
            with tempfile.NamedTemporaryFile() as file:
                file.write(data)
                file.flush()
                with Host(file.name) as host, PacedHost(file.name, rate=1) as device:
                    self.assertEqual((host.parameters, host.image), ({"p": 0}, [False, False, True, True]))
                    self.assertEqual(host.set(p=1), [(1, True), (2, False)])
                    self.assertEqual((device.ask(p=1), device.tick(), device.writes), (2, False, [(1, True)]))

    def test_collected(self) -> None:
        """A host that isn't closed is freed when it is collected; one that is closed isn't freed twice."""
        for make in (Host, lambda path: PacedHost(path, rate=1)):
            host = make(f"{DATA}/fir.ppc")
            handle = host._calls._handle
            self.assertTrue(handle.is_open)
            del host
            gc.collect()
            self.assertFalse(handle.is_open)
            host = make(f"{DATA}/fir.ppc")
            host.close()
            handle = host._calls._handle
            del host
            gc.collect()
            self.assertFalse(handle.is_open)

    def test_values(self) -> None:
        """A parameter's value is a bit."""
        with Host(f"{DATA}/fir.ppc") as host, PacedHost(f"{DATA}/fir.ppc", rate=1) as device:
            for call in (host.set_parameters, device.ask_parameters):
                with self.assertRaisesRegex(Fault, r"^c0\[0\]=2: the value of a parameter is 0 or 1$"):
                    call({"c0[1]": 1, "c0[0]": 2})
                with self.assertRaisesRegex(Fault, "^c9 isn't a parameter of the pack$"):
                    call({"c9": 1})
            host.set_parameters({"c0[0]": True, "c0[1]": False})
            self.assertEqual((host.values["c0[0]"], host.values["c0[1]"]), (True, False))


class LibraryFaultTest(unittest.TestCase):
    """What is refused before the library is called, built or not."""

    def test_rates(self) -> None:
        """A tick writes at least one bit, and at most as many as 32 binary digits count."""
        for rate in (0, -1, 2**32):
            with self.assertRaisesRegex(Fault, f"^rate {rate}: a tick writes 1 to 4294967295 bits$"):
                PacedHost(f"{DATA}/fir.ppc", rate=rate)

    def test_other_libraries(self) -> None:
        """A file that isn't there, isn't a shared object, or is another library, is one fault line."""
        with tempfile.NamedTemporaryFile(suffix=".so") as file:
            file.write(b"no library")
            file.flush()
            for library, told in (
                ("nowhere.so", r"^nowhere\.so isn't built: make -C include$"),
                (file.name, f"^{file.name} can't be loaded as the library for host programs: .*$"),
                (_ctypes.__file__, "isn't the library for host programs: it has no tlut_open$"),
            ):
                for call in (Host, lambda path, library: PacedHost(path, 1, library)):
                    with self.assertRaisesRegex(Fault, told) as caught:
                        call(f"{DATA}/fir.ppc", library)
                    self.assertNotIn("\n", str(caught.exception))

    def test_header(self) -> None:
        """The functions that Python calls are those of the header."""
        with open(f"{TOP}/include/tlut_host.h", encoding="ascii") as file:
            declared = [line.split("(")[0].split()[1] for line in file if line.startswith("tlut_status ")]
        self.assertEqual(sorted(declared), sorted(FUNCTIONS))


if __name__ == "__main__":
    unittest.main()
