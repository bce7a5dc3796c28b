"""What the configuration port is sent."""

import unittest

from tlutflow.pack import read_pack
from tlutflow.tests.helpers import DATA, InFolder, flow, needs
from tlutflow.tools import ICARUS, ICARUS_PLAYER, find, run
from tlutflow.verilog.store import store_of

FIR = f"{DATA}/fir.ppc"
# Loads the chain of `coder_mapped` by a stream, and shows the cells.
LOADER = """module loader;
    reg cfg_clk = 0, cfg_we = 1, cfg_in = 0, cfg_commit = 0;
    reg [0:{high}] stream = {size}'b{digits};
    integer i;
    fir_mapped it (.clk(1'b0), .x(3'd0), .cfg_clk(cfg_clk), .cfg_we(cfg_we), .cfg_in(cfg_in), .cfg_commit(cfg_commit));
    initial begin
        for (i = 0; i <= {high}; i = i + 1) begin
            cfg_in = stream[i];
            #1 cfg_clk = 1; #1 cfg_clk = 0;
            if (it.cfg_bits !== {size}'b{start}) $display("seen too early");
        end
        cfg_we = 0; cfg_commit = 1;
        #1 cfg_clk = 1; #1 cfg_clk = 0;
        for (i = 0; i <= {high}; i = i + 1) $write("%b", it.cfg_bits[i]);
        $display("");
    end
endmodule
"""


class Streams(InFolder):
    def test_values_and_lines_give_the_same(self):
        lines = "bits 484\nset 14 145=0 147=1 149=1 151=0 199=0 201=0 213=0 215=1 382=1 419=1 423=1 427=1 430=1 431=1\n"
        for words in ((), ("--port", "random"), ("--bits", "distinct"), ("--bits", "distinct", "--port", "random"), ("--regions", "2"), ("--port", "random", "--word", "8")):
            by_values = flow("stream", FIR, "c1[2]=1", *words)
            self.assertEqual((by_values.returncode, by_values.stdout), (0, flow("stream", FIR, *words, given=lines).stdout), by_values.stderr)
        changes = flow("stream", FIR, "c1[2]=1", "--port", "random").stdout.split()
        self.assertEqual(len(changes), 14)
        everything = flow("stream", FIR, "c1[2]=1", "--port", "random", "--all").stdout.split()
        self.assertEqual((len(everything), set(changes) <= set(everything)), (126, True))
        bits = dict(map(int, word.split("=")) for word in everything)
        for size in (8, 32):
            found = flow("stream", FIR, "c1[2]=1", "--port", "random", "--all", "--word", str(size)).stdout.split()
            digits = [digit for word in found for digit in reversed(word.split("=")[1])]
            self.assertEqual(([word.split("=")[0] for word in found], digits), ([str(it) for it in range(-(-126 // size))], [str(bits[it]) for it in range(126)]))

    def test_options_between_arguments(self):
        """Options may be anywhere among files and values."""
        last = flow("stream", FIR, "c1=7", "c0=1", "--target", "generic").stdout
        for words in ((FIR, "--target", "generic", "c1=7", "c0=1"), ("--target", "generic", FIR, "c1=7", "c0=1"), (FIR, "c1=7", "--target", "generic", "c0=1")):
            ran = flow("stream", *words)
            self.assertEqual((ran.returncode, ran.stdout), (0, last), ran.stderr)
        recipe = flow("verilog", "a.v", "--top", "t", "b.v", "--recipe").stdout
        self.assertIn('read_verilog "a.v"\n# the design\nread_verilog "b.v"\n', recipe)
        self.assert_fault(flow("stream", FIR, "--none", "c1=7"), "flow stream: unrecognized arguments: --none; see flow stream --help", 2)
        self.assert_fault(flow("stream", "--target", "generic"), "flow stream: the following arguments are required: PACK", 2)

    def test_a_chain_has_the_bits_that_change(self):
        pack = read_pack(FIR)
        digits = flow("stream", FIR, "c1=7").stdout.strip()
        after = pack.configuration({**pack.parameters, **{f"c1[{place}]": 1 for place in range(3)}})
        store = store_of(pack, "changing")
        order = sorted(range(store.size), key=lambda cell: store.start[store.cells[cell]])
        self.assertEqual(digits, "".join(str(after[store.cells[cell]]) for cell in order))
        parts = flow("stream", FIR, "c1=7", "--regions", "2").stdout.split()
        self.assertEqual(sum(len(part) for part in parts if part != "-"), 126)

    @needs(ICARUS, ICARUS_PLAYER)
    def test_the_circuit_sees_a_whole_stream_or_none_of_it(self):
        digits = flow("stream", FIR, "c1=7").stdout.strip()
        start = flow("stream", FIR, "c1=3").stdout.strip()
        circuit = self.put("c.v", flow("hdl", f"{DATA}/fir_t.blif", FIR).stdout)
        loader = self.put("l.v", LOADER.format(high=len(digits) - 1, size=len(digits), digits=digits, start=start[::-1]))
        out = f"{self.folder}/l.vvp"
        self.assertEqual(run([find(ICARUS) or "", "-g2005", "-o", out, circuit, loader]).returncode, 0)
        self.assertEqual(run([find(ICARUS_PLAYER) or "", out]).stdout, digits + "\n")

    def test_xilinx(self):
        template = ("--template", f"{DATA}/fir_t.blif", "--target", "xilinx")
        alone = (*template, "--no-pairs")
        self.assertEqual(len(flow("stream", FIR, "c1[2]=1", *alone, "--port", "random").stdout.split()), 14)
        self.assertEqual(len(flow("stream", FIR, "c1[2]=1", *alone).stdout.strip()), 27 * 32)
        text = flow("hdl", f"{DATA}/fir_t.blif", FIR, "--target", "xilinx").stdout
        self.assertEqual(len(flow("stream", FIR, "c1[2]=1", *template).stdout.strip()), 32 * text.count("CFGLUT5 #("))
        # --device chooses the same.
        self.assertEqual(flow("stream", FIR, "c1=7", *template[:2], "--device", "xilinx7").stdout, flow("stream", FIR, "c1=7", *template).stdout)
        self.assert_fault(flow("stream", FIR, "c1=1", "--target", "xilinx"), "--target xilinx needs --template")

    def test_faults(self):
        self.assert_fault(flow("stream", FIR, "z=1"), "z is none of the parameters")
        self.assert_fault(flow("stream", FIR, given="set 1 9999=1\n"), "there are 484 configuration bits")
        self.assert_fault(flow("stream", FIR, given="upset 474=0\n"), "bit 474 depends on no parameter")
        self.assert_fault(flow("stream", FIR, "--all"), "--all needs NAME=VALUE")
        self.assert_fault(flow("stream", f"{DATA}/fir_t.blif", "c1=1"), "not a pack")


if __name__ == "__main__":
    unittest.main()
