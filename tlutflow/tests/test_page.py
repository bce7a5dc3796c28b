"""The report page of a design with odd names: its links, its commands, and what its address shows."""

import html
import os
import re
import shlex
import subprocess
from urllib.parse import unquote

from tlutflow.build_files import page_text
from tlutflow.tests.helpers import MUX, InFolder, flow, needs
from tlutflow.tests.test_build import NEEDS_TLUT
from tlutflow.tools import ICARUS, ICARUS_PLAYER, find

NODE = ("node", "nodejs")
# Stands for the page in a browser: everything is there, and has everything. Printed is what the picture shows at first.
BROWSER = """
const any = new Proxy(function () {}, {
  get: (of, name) => name === Symbol.toPrimitive ? () => 0 : name === Symbol.iterator ? function* () {} : any,
  set: () => true, apply: () => any,
});
const choice = { appendChild() {} };
const document = { getElementById: name => name === "choice" ? choice : any, createElement: () => ({}), createElementNS: () => any, querySelectorAll: () => [] };
const window = any, location = { hash: process.argv[2] };
const CIRCUIT = {
  nodes: [{ name: "a", kind: "input", depth: 0, from: [] }, { name: "n", kind: "lut", depth: 1, from: [0] }],
  outputs: [{ name: "y", root: 1 }, { name: "50%", root: 0 }, { name: "a b", root: 0 }, { name: "%41", root: 0 }], path: [0, 1], end: "y",
};
"""


class Page(InFolder):
    def test_an_address_may_have_any_name(self):
        node = find(NODE)
        if node is None:
            self.skipTest("Node.js (node) isn't there")
        script = self.put("page.js", f"{BROWSER}\n{page_text('report.js')}\nconsole.log(choice.value);\n")
        for address, shown in (("", "all"), ("#cone=y", "o0"), ("#cone=50%", "o1"), ("#cone=50%25", "o1"), ("#cone=a%20b", "o2"), ("#cone=%41", "o3"), ("#100%", "all")):
            ran = subprocess.run([node, script, address], capture_output=True, text=True, check=False)
            self.assertEqual((ran.stdout, ran.stderr), (f"{shown}\n", ""), address)

    @needs(ICARUS, ICARUS_PLAYER)
    @NEEDS_TLUT
    def test_links_and_commands(self):
        """A link leads to its file, and each command can be copied into a shell."""
        folder, stem = f"{self.folder}/out; $x", "a?b#c &d"
        script = self.put("n o.scr", "cycle a=1 b=0\n")
        words = (self.put(f"{stem}.blif", MUX), self.put(f"{stem}.par", "p 0\n"), "--quick", "--k", "4", "--script", script, "--out", folder)
        ran = flow("build", *words)
        self.assertEqual(ran.returncode, 0, ran.stderr)
        with open(f"{folder}/index.html", encoding="utf-8") as file:
            page = file.read()
        files = re.findall(r'<a href="([^"#][^"]*)"><code>', page)
        self.assertGreater(len(files), 8)
        for link in files:
            self.assertRegex(link, r"^[\w.%-]+$")
            self.assertTrue(os.path.exists(f"{folder}/{unquote(link)}"), link)
        commands = html.unescape(re.search("one by one:</p><pre>(.*?)</pre>", page, re.DOTALL)[1]).splitlines()
        redirected = [shlex.split(line) for line in commands if " < " in line]
        self.assertEqual([line[line.index("<") + 1] for line in redirected], [script, f"{folder}/{stem}_run.txt", f"{folder}/{stem}_run.txt"])
        self.assertEqual([line[-1] for line in redirected if ">" in line], [f"{folder}/{stem}_run.scr", f"{folder}/{stem}.vcd"])
