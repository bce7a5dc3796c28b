"""Names of files that no script can hold: none runs a command or is read as a pattern, and each one is named as it was given."""

import os
from unittest import mock

from tlutflow.plain_names import PlainNames, is_plain
from tlutflow.tests.helpers import MUX, MUX_PACK, MUX_TEMPLATE, InFolder, flow, needs
from tlutflow.tests.test_build import NEEDS_TLUT
from tlutflow.tools import ABC, ICARUS, ICARUS_PLAYER, YOSYS
from tlutflow.verilog.recipe import Sources

# A name that ends the line of a script of Yosys, and begins a command of the shell.
HOSTILE = 'a"\n!touch pwned\n#'
TOP = """`include "inc/width.vh"
module top (input c, input [1:0] a, output [`WIDTH-1:0] y, output r, output reg q);
    reg kept [0:3];
    initial $readmemh("kept.hex", kept);
    assign y = {`WIDTH{kept[a]}};
    wire n;
    assign r = n & a[1];
    always @(posedge c) q <= a[0];
endmodule
"""


class Names(InFolder):
    def test_plain(self):
        for path, wanted in (("a/b-c_d.v", True), ("../+x.v", True), ("-x.v", False), ("+/x.v", False), ("~/x", False), ("a b", False), ("a*", False), ("", False)):
            self.assertEqual(is_plain(path), wanted, path)

    def test_links(self):
        names = PlainNames(f"{self.folder}/names")
        self.assertEqual(names.path("a/b.v"), "a/b.v")
        self.assertEqual(os.path.exists(names.folder), False)
        self.assertEqual((names.path("a b/c.v"), names.path("a b/d.v")), (f"{names.folder}/0/c.v", f"{names.folder}/0/d.v"))
        self.assertEqual(names.path("a/b c.v"), f"{names.folder}/1.v")
        self.assertEqual(names.shown(f"{names.folder}/0/c.v:7: {names.folder}/1.v. {names.folder}/10"), f"a b/c.v:7: a/b c.v. {names.folder}/10")

    def test_a_way_through_a_link(self):
        os.makedirs(f"{self.folder}/other/inner")
        os.symlink("other/inner", f"{self.folder}/way")
        path = self.put("other/a b.v", "mine")
        made = PlainNames(f"{self.folder}/names").path(f"{self.folder}/way/../a b.v")
        self.assertTrue(os.path.samefile(made, path))

    def test_plain_sources_stay_as_they_are(self):
        given = Sources(["a.v", "b/c.sv"], "top", includes=["inc"], cells=["d.v"])
        self.assertEqual(PlainNames(f"{self.folder}/names").sources(given), given)


class Hostile(InFolder):
    def setUp(self):
        super().setUp()
        self.room = f"{self.folder}/{HOSTILE} *"
        os.makedirs(f"{self.room}/inc")
        os.makedirs(f"{self.folder}/cwd")

    def put_design(self, name: str) -> str:
        for path, text in ((name, TOP), ("inc/width.vh", '`include "more.vh"\n'), ("inc/more.vh", "`define WIDTH 3\n"), ("kept.hex", "1 0 0 1\n")):
            with open(f"{self.room}/{path}", "w", encoding="utf-8") as file:
                file.write(text)
        return f"{self.room}/{name}"

    def assert_nothing_ran(self):
        self.assertEqual(os.listdir(f"{self.folder}/cwd"), [])

    @needs(YOSYS)
    def test_sources(self):
        """Files and folders, what these include and read, and lines that name them."""
        for name in ("top.v", f"{HOSTILE} *.v"):
            path = self.put_design(name)
            ran = flow("verilog", "--quick", path, "--top", "top", "--out", f"{self.room}/out", folder=f"{self.folder}/cwd")
            self.assertEqual(ran.returncode, 0, ran.stderr)
            self.assertIn(f"n ({path}:6) has no driver", ran.stderr)
            self.assertIn("outputs y[2:0], r, q; 1 register bit", ran.stdout)
            self.assert_nothing_ran()

    @needs(YOSYS)
    def test_folders_of_includes(self):
        self.put_design("top.v")
        with open(f"{self.folder}/cwd/top.v", "w", encoding="utf-8") as file:
            file.write('`include "width.vh"\nmodule top (input a, output y); assign y = a ^ (`WIDTH == 3); endmodule\n')
        ran = flow("verilog", "--quick", "top.v", "--top", "top", "-I", f"{self.room}/inc", "--out", self.room, folder=f"{self.folder}/cwd")
        self.assertEqual(ran.returncode, 0, ran.stderr)
        self.assertEqual(os.listdir(f"{self.folder}/cwd"), ["top.v"])

    @needs(YOSYS)
    def test_faults_name_the_file(self):
        for name in ("top.v", "a b.v"):
            path = self.put_design(name)
            with open(path, "a", encoding="utf-8") as file:
                file.write("module (;\n")
            self.assert_fault(flow("verilog", "--quick", path, "--top", "top", folder=f"{self.folder}/cwd"), f" *{os.sep}{name}:10: ERROR: syntax error")

    @needs(YOSYS)
    def test_a_name_is_no_pattern(self):
        self.put("ab.v", "no Verilog")
        self.put("a*.v", "module top (input a, output y); assign y = ~a; endmodule\n")
        ran = flow("verilog", "--quick", "a*.v", "--top", "top", folder=self.folder)
        self.assertEqual(ran.returncode, 0, ran.stderr)

    def test_a_recipe_has_no_such_name(self):
        for words in ((f"{HOSTILE}.v",), ("a*.v",), ("a.v", "-I", "a b"), ("a.v", "--out", HOSTILE)):
            self.assert_fault(flow("verilog", *words, "--top", "top", "--recipe"), "a script of Yosys can't hold this name")
        self.assertIn('read_verilog "a b.v"\n', flow("verilog", "a b.v", "--top", "top", "--recipe").stdout)

    @needs(YOSYS)
    def test_a_netlist_for_a_device(self):
        path = f"{self.room}/{HOSTILE}.blif"
        with open(path, "w", encoding="utf-8") as file:
            file.write(MUX)
        ran = flow("device", path, "--target", "ice40", "--no-place", "--out", f"{self.room}/out", folder=f"{self.folder}/cwd")
        self.assertEqual((ran.returncode, "1 SB_LUT4" in ran.stdout), (0, True), ran.stderr)
        self.assertEqual(os.listdir(f"{self.room}/out"), ["mux.json"])
        self.assertIn("mux.ys isn't written", ran.stderr)
        self.assert_nothing_ran()

    @needs(ICARUS, ICARUS_PLAYER)
    def test_a_simulation(self):
        with open(f"{self.room}/n.scr", "w", encoding="utf-8") as file:
            file.write("cycle 10\n")
        template, pack = self.put("t.blif", MUX_TEMPLATE), self.put("p.ppc", MUX_PACK)
        ran = flow("hdl", template, pack, "--script", f"{self.room}/n.scr", "--simulate", "--out", f"{self.room}/out", given="luts 1 bits 4 depth 1\ncycle 0 -\n", folder=f"{self.folder}/cwd")
        self.assertEqual((ran.returncode, ran.stdout), (0, "2 lines of the simulation, all as the run's\n"), ran.stderr)
        self.assert_nothing_ran()


class TemporaryFolder(InFolder):
    """TMPDIR may have any name."""

    def setUp(self):
        super().setUp()
        self.room = f"{self.folder}/a b\"$(touch pwned)"
        os.makedirs(self.room)
        # Python looks at TMPDIR once.
        chosen = mock.patch("tempfile.tempdir", self.room)
        chosen.start()
        self.addCleanup(chosen.stop)

    @needs(YOSYS)
    def test_synthesis(self):
        self.put("top.v", "module top (input a, b, output y); assign y = a ^ b; endmodule\n")
        ran = flow("verilog", "--quick", "top.v", "--top", "top", folder=self.folder, TMPDIR=self.room)
        self.assertEqual((ran.returncode, os.listdir(self.room)), (0, []), ran.stderr)

    @needs(ABC)
    @NEEDS_TLUT
    def test_a_build(self):
        words = ("build", self.put("n.blif", MUX), self.put("n.par", "p 0\n"), "--quick", "--k", "4", "--out", f"{self.folder}/out")
        ran = flow(*words, TMPDIR=self.room)
        self.assertEqual(ran.returncode, 0, ran.stderr)
        self.assertEqual((os.listdir(self.room), sorted(os.listdir(self.folder))), ([], sorted([os.path.basename(self.room), "n.blif", "n.par", "out"])))

    @needs(ABC)
    def test_comparison(self):
        source = self.put("n.blif", MUX)
        self.assertEqual(flow("check", source, source, TMPDIR=self.room).stdout, "equal (ABC cec)\n")
