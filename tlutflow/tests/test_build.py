"""`flow build`: steps that are made once, the data of the picture, and the page."""

import contextlib
import io
import json
import os
import re
import select
import unittest
from html.parser import HTMLParser

from tlutflow.building import DRAWN
from tlutflow.faults import Fault
from tlutflow.netlist import parse_library
from tlutflow.reports.circuit_view import Groups, view_of, with_names
from tlutflow.steps import Steps
from tlutflow.tests.helpers import EXAMPLES, MUX, TOP, InFolder, example, flow, mapped, mux, needs
from tlutflow.tools import ABC, BUILT, ICARUS, ICARUS_PLAYER, YOSYS, run

NEEDS_TLUT = unittest.skipUnless(any(os.path.exists(f"{TOP}/{it}") for it in BUILT), "tlut isn't built")
EMPTY = {"meta", "link", "br", "input", "img", "hr"}


class Page(HTMLParser):
    """A page: whether its tags nest, its sections, its ids, and what it would load from elsewhere."""

    def __init__(self, text: str):
        super().__init__()
        self.open: list[str] = []
        self.ids: list[str] = []
        self.loaded: list[str] = []
        self.wrong: list[str] = []
        self.feed(text)

    def handle_starttag(self, tag, attrs):
        found = dict(attrs)
        if "id" in found:
            self.ids.append(found["id"])
        self.loaded += [found[name] for name in ("src",) if name in found] + ([found["href"]] if tag == "link" else [])
        if tag not in EMPTY and tag not in ("rect", "line", "circle"):
            self.open.append(tag)

    def handle_endtag(self, tag):
        if tag in ("rect", "line", "circle"):
            return
        if not self.open or self.open.pop() != tag:
            self.wrong.append(tag)


class Once(InFolder):
    def test_a_step_is_made_again_where_something_changed(self):
        made = []
        source, target = self.put("s", "1"), f"{self.folder}/t"

        def work():
            made.append(1)
            with open(target, "w", encoding="utf-8") as file:
                file.write("made")
            return {"n": len(made)}

        def step(words=("w",)):
            with contextlib.redirect_stderr(io.StringIO()):
                return Steps(self.folder, "flow build").make("step", list(words), [source], [target], work)["n"]

        self.assertEqual([step(), step()], [1, 1])
        self.put("s", "2")
        self.assertEqual([step(), step()], [2, 2])
        self.assertEqual(step(("other",)), 3)
        self.put("t", "changed by hand")
        self.assertEqual([step(("other",)), step(("other",))], [4, 4])
        os.remove(target)
        self.assertEqual(step(("other",)), 5)
        self.put("build.json", "{ no JSON")
        self.assertEqual(step(("other",)), 6)
        with contextlib.redirect_stderr(io.StringIO()):
            self.assertEqual(Steps(self.folder, "flow build", again=True).known, {})
            with self.assertRaisesRegex(Fault, "wasn't written"):
                Steps(self.folder, "f").make("none", [], [], [f"{self.folder}/none"], lambda: None)


class Stopped(InFolder):
    def test_what_it_has_called_is_stopped_too(self):
        """The pipe has no writer left, though the program's own call would write to it for a minute."""
        pipe = f"{self.folder}/pipe"
        os.mkfifo(pipe)
        reader = os.open(pipe, os.O_RDONLY | os.O_NONBLOCK)
        with self.assertRaisesRegex(Fault, "sh was stopped after 3 seconds"):
            run(["sh", "-c", f"(echo begun; exec sleep 60) > {pipe} & wait"], None, 3)
        os.set_blocking(reader, True)
        found = select.select([reader], [], [], 5)[0] and os.read(reader, 99)
        left = select.select([reader], [], [], 5)[0] and os.read(reader, 99)
        self.assertEqual((found, left), (b"begun\n", b""))
        os.close(reader)

    def test_a_program_that_ends_is_as_without_a_limit(self):
        for seconds in (None, 60):
            ran = run(["sh", "-c", "cat; echo said >&2; exit 3"], self.folder, seconds, "given")
            self.assertEqual((ran.returncode, ran.stdout, ran.stderr), (3, "given", "said\n"))


class Views(unittest.TestCase):
    def test_groups(self):
        self.assertEqual(Groups(["a[0]", "a[1]", "b[0]", "b[1]"]).listed(["a[0]", "a[1]", "b[1]"]), "a[1:0], b[1]")
        self.assertEqual(Groups(["a", "b", "c"]).listed(["a", "b", "c"], 2), "a, b and 1 more")

    def test_mux(self):
        view = view_of(mux())
        self.assertEqual([(it["name"], it["kind"], it["depth"], it["from"]) for it in view["nodes"]],
                         [("a", "input", 0, []), ("b", "input", 0, []), ("_n13", "tunable", 1, [0, 1])])
        self.assertEqual((view["outputs"], view["path"], view["end"]), ([{"name": "y", "root": 2}], [0, 2], "y"))
        self.assertEqual((view["nodes"][2]["params"], view["nodes"][2]["bits"], view["nodes"][2]["drives"]), ("p", "0 to 3", "output y"))

    def test_flip_flops_have_the_names_of_the_source(self):
        source = parse_library(example("fir/fir.blif"), "fir")
        circuit = with_names(mapped("fir"), source)
        self.assertEqual([it.state for it in circuit.latches], [it.net for it in source.flat_latches()])
        view = view_of(circuit)
        for number, node in enumerate(view["nodes"]):
            self.assertTrue(all(it < number for it in node["from"]))
        path = [view["nodes"][it] for it in view["path"]]
        self.assertEqual([it["depth"] for it in path], list(range(len(path))))
        self.assertEqual(with_names(circuit, parse_library(MUX, "m")), circuit)


class Builds(InFolder):
    @needs(ABC, YOSYS)
    @NEEDS_TLUT
    def test_filter(self):
        script = self.put("fir.scr", example("fir/changing.scr"))
        words = ["build", f"{EXAMPLES}/fir/fir.v", "--top", "fir", "--param", "c0=5", "--param", "c1=3", "--param", "c2=6"]
        words += ["--k", "4", "--only", "map", "--script", script, "--out", f"{self.folder}/out", "-j", "2"]
        ran = flow(*words)
        self.assertEqual(ran.returncode, 0, ran.stderr)
        for end in (".blif", ".par", "_t.blif", ".ppc", "_spec.blif", ".cert", "_mapped.v", "_mapped_bench.v", "_run.txt", ".vcd"):
            self.assertTrue(os.path.getsize(f"{self.folder}/out/fir{end}"), end)
        self.assertEqual(ran.stdout.count("\nnot shown: ") + ran.stdout.count("\nchecked: "), 5)
        self.assertIn("equal under all values of 9 parameters (ABC cec, latch by latch)", ran.stdout)
        self.assertIn("depth at least 5", ran.stdout)
        self.look_at(f"{self.folder}/out/index.html")
        with open(f"{self.folder}/out/index.html", encoding="utf-8") as file:
            self.assertIn("--k 4 --for depth --only map --out", file.read())
        again = flow(*words)
        self.assertEqual((again.stdout, again.stderr.count(": as before")), (ran.stdout, again.stderr.count("\n")))
        more = flow(*words[:-4], "--out", f"{self.folder}/out", "--script", self.put("fir.scr", example("fir/ten.scr")))
        self.assertIn("netlist: as before", more.stderr)
        self.assertRegex(more.stderr, r"flow build: run: [0-9.]+ s")

    @needs(YOSYS)
    @NEEDS_TLUT
    def test_the_page_says_what_the_netlist_has_otherwise(self):
        """A second call, which reads no Verilog again, says it too."""
        self.put("top.v", "module top (input clk, r, d, output reg q); always @(posedge clk or posedge r) if (r) q <= 0; else q <= d; endmodule\n")
        for told in (1, 0):
            ran = flow("build", "top.v", "--top", "top", "--quick", "--out", "made", folder=self.folder)
            self.assertEqual((ran.returncode, ran.stderr.count("has an asynchronous reset")), (0, told), ran.stderr)
            with open(f"{self.folder}/made/index.html", encoding="utf-8") as file:
                self.assertIn("<li>q (top.v:1) has an asynchronous reset; ", file.read())

    def look_at(self, path):
        with open(path, encoding="utf-8") as file:
            text = file.read()
        page = Page(re.sub(r"<script>.*</script>", "", text, flags=re.DOTALL))
        self.assertEqual((page.wrong, page.open, page.loaded), ([], [], []))
        self.assertEqual(len(page.ids), len(set(page.ids)))
        for part in ("sizes", "path", "picture", "tables", "parameters", "changes", "run", "preparations", "checks", "files", "stage"):
            self.assertIn(part, page.ids)
        data = json.loads(re.search(r"const CIRCUIT = (.*);\n", text)[1])
        self.assertEqual(len(data["outputs"]), 6)
        self.assertNotIn("http://", text.replace("http://www.w3.org/2000/svg", ""))
        self.assertIn("x1[0]", [node["name"] for node in data["nodes"]])

    @NEEDS_TLUT
    def test_more_tables_than_are_drawn(self):
        """A large circuit has its drawing in Graphviz's language, and its report."""
        names = [f"y{number}" for number in range(DRAWN + 1)]
        covers = [f".names a b x{number} {name}\n111 1\n" for number, name in enumerate(names)]
        inputs = " ".join(["a", "b", *(f"x{number}" for number in range(len(names)))])
        netlist = self.put("n.blif", f".model n\n.inputs {inputs}\n.outputs {' '.join(names)}\n{''.join(covers)}.end\n")
        ran = flow("build", netlist, self.put("n.par", ""), "--quick", "--out", f"{self.folder}/out")
        self.assertEqual(ran.returncode, 0, ran.stderr)
        self.assertTrue(os.path.getsize(f"{self.folder}/out/n.dot"))
        self.assertTrue(os.path.getsize(f"{self.folder}/out/index.html"))

    @needs(ICARUS, ICARUS_PLAYER)
    @NEEDS_TLUT
    def test_more_seconds_try_again(self):
        """A simulation that took too long leaves the Verilog, and starts again once it may take longer."""
        script, out = self.put("n.scr", "cycle a=1 b=0\n"), f"{self.folder}/out"
        words = ["build", self.put("n.blif", MUX), self.put("n.par", "p 0\n"), "--quick", "--k", "4", "--script", script, "--out", out]
        self.assertRegex(flow(*words, "--seconds", "0.01").stdout, "not shown: the Verilog plays .* was stopped after 0.01 seconds")
        self.assertTrue(os.path.getsize(f"{out}/n_mapped_bench.v"))
        self.assertIn("checked: the Verilog plays the script as the run did (Icarus Verilog: 2 lines", flow(*words).stdout)

    @NEEDS_TLUT
    def test_a_netlist_without_other_programs(self):
        """With nothing but Python and tlut there are all files but those of others, and the report says what wasn't run."""
        os.makedirs(f"{self.folder}/bin")
        for name in ("bash", "sh", "find", "git", "mktemp", "touch", "mv", "rm", "cat", "readlink"):
            import shutil

            if shutil.which(name):
                os.symlink(shutil.which(name), f"{self.folder}/bin/{name}")
        netlist, params = self.put("n.blif", MUX), self.put("n.par", "p 0\n")
        ran = flow("build", netlist, params, "--quick", "--k", "4", "--out", f"{self.folder}/out", PATH=f"{self.folder}/bin")
        self.assertEqual(ran.returncode, 0, ran.stderr)
        self.assertIn("n: 1 LUT, depth 1, 4 bits at K 4\n", ran.stdout)
        self.assertEqual(ran.stdout.count("ABC isn't there"), 2)
        self.assertTrue(os.path.exists(f"{self.folder}/out/n.dot"))

    def test_words(self):
        netlist = self.put("n.blif", MUX)
        self.assert_fault(flow("build", netlist, "--out", self.folder), "NETLIST PARAMS")
        self.assert_fault(flow("build", "x.v", "--out", self.folder), "--top names the module")
        self.assert_fault(flow("build", netlist, f"{self.folder}/none.par", "--quick", "--out", f"{netlist}/x", TLUT=f"{TOP}/flow"), "n.blif/x")
