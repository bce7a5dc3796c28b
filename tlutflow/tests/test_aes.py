"""The example of AES-128: its source in Icarus Verilog gives the results of FIPS-197 and SP 800-38A."""

import re
import unittest

from tlutflow.tests.helpers import EXAMPLES, InFolder, example, needs
from tlutflow.tests.test_designs import played_by_icarus
from tlutflow.tools import ICARUS, ICARUS_PLAYER

# The key at the start; the scripts set the other one.
KEY = 0x2B7E151628AED2A6ABF7158809CF4F3C
RESULTS = {
    0x3243F6A8885A308D313198A2E0370734: 0x3925841D02DC09FBDC118597196A0B32,
    0x6BC1BEE22E409F96E93D7E117393172A: 0x3AD77BB40D7A3660A89ECAF32466EF97,
    0xAE2D8A571E03AC9C9EB76FAC45AF8E51: 0xF5D3D58503B9699DE785895A96FDBAAF,
    0x30C81C46A35CE411E5FBC1191A0A52EF: 0x43B1CD7F598ECE23881B00E3ED030688,
    0xF69F2445DF4F9B17AD2B417BE66C3710: 0x7B0C785E27E8AD3F8223207104725DD4,
    0x00112233445566778899AABBCCDDEEFF: 0x69C4E0D86A7B0430D8CDB78070B4C55A,
}
# Clocks from a block to its result.
LATE = 11
BENCH = """module bench;
    reg clk = 0, start = 0;
    reg [127:0] plain = 0, key = 128'h{key:032x};
    wire [127:0] cipher;
    {top} it (.clk(clk), {start}.plain(plain), .key(key), .cipher(cipher));
    initial begin
{events}
    end
endmodule
"""


def events_of(script: str) -> list[str]:
    """The lines of a testbench that plays a script with values of buses."""
    lines = []
    for line in script.splitlines():
        word, *values = line.split() or ["#"]
        if word != "#":
            lines += [f"        {name} = 128'h{int(value, 0):x};" for name, value in (it.split("=") for it in values)]
        if word == "cycle":
            lines.append('        #4 $display("%h", cipher); #1 clk = 1; #5 clk = 0;')
    return lines


def cycles(top: str, script: str, folder: str) -> tuple[list[int], list[int]]:
    """The blocks that enter, 0 for none, and the outputs of the source, by cycles."""
    text = example(f"aes/{script}")
    start = ".start(start), " if "start=" in text else ""
    shown = played_by_icarus(f"{EXAMPLES}/aes/aes.v", BENCH.format(key=KEY, top=top, start=start, events="\n".join(events_of(text))), folder)
    lines = [line for line in text.splitlines() if line.startswith("cycle")]
    given = [re.search("plain=(0x[0-9a-f]+)", line) for line in lines]
    return [int(it[1], 0) if it else 0 for it in given], [int(words[0], 16) for words in shown]


def results_of(given: list[int], shown: list[int]) -> list[tuple[int, int]]:
    """For each block its result by the standards, and the output when it is due."""
    return [(RESULTS[block], shown[place + LATE]) for place, block in enumerate(given) if block]


@needs(ICARUS, ICARUS_PLAYER)
class Source(InFolder):
    def test_results(self):
        for top, script, blocks in (("aes", "blocks.scr", 6), ("aes_iterated", "one_block.scr", 2), ("aes_on_the_fly", "one_block.scr", 2)):
            with self.subTest(top):
                found = results_of(*cycles(top, script, self.folder))
                self.assertEqual(len(found), blocks)
                self.assertEqual([it for it, _ in found], [it for _, it in found])


if __name__ == "__main__":
    unittest.main()
