"""All files of a design in one folder: netlist, mapping, packs, certificate, Verilog, picture, and what the report page shows.

A step that has nothing new to read is left as it is. What follows from the mapping is made several steps at a time.
"""

from __future__ import annotations

import os
import shlex
from concurrent.futures import ThreadPoolExecutor
from dataclasses import replace
from functools import partial
from typing import Any, Callable

from tlutflow import tools
from tlutflow.abc_form import abc_text
from tlutflow.build_files import copy, make_folder, program_file, refuse_links
from tlutflow.built import Built, told_of
from tlutflow.bus import Bus
from tlutflow.buses import buses_of
from tlutflow.changes import changes_of, rewritten
from tlutflow.circuit import Circuit, read_circuit
from tlutflow.devices.steps import DeviceSteps
from tlutflow.faults import Fault, Undecided
from tlutflow.mappings import Sizes, sizes_by_abc, sizes_by_tlut
from tlutflow.netlist import read_library
from tlutflow.options import BuildOptions
from tlutflow.parameters import parameter_list, read_parameters
from tlutflow.plain_names import temporary_folder, work_folder
from tlutflow.port_file import END, file_name, find_ports, keep_ports
from tlutflow.preparing.comparison import BY_PARTS, WHOLE
from tlutflow.preparing.trials import AIMS, RULE_NAMES, RULES, keep, prepare
from tlutflow.refusals import refusal_of
from tlutflow.runs.script_writer import bit_script
from tlutflow.stages.elaboration import make, sources_of, summary
from tlutflow.stages.equality import Pair, compare
from tlutflow.stages.hardware import Module, module_of, read_recording, simulated, write_module
from tlutflow.stages.picture import draw
from tlutflow.stages.preparing import progress, task_of
from tlutflow.stages.runs import Run, Viewer, read_run
from tlutflow.steps import Steps
from tlutflow.text import logical_lines, read_text, write_text
from tlutflow.verilog.hdl import Way
from tlutflow.verilog.names import module_name

# A static picture of more LUTs is of no use; the page has one that can be moved.
DRAWN = 300


class Build:
    """A build: its options, its folder, the names of its files, and what is chosen on the way: K, the rule, the script and the port."""

    def __init__(self, options: BuildOptions):
        self.options, self.design, self.how = options, options.design, options.preparing
        self.folder, self.script, self.k, self.way = options.folder, options.script, self.how.k, options.way
        self.is_verilog = self.design.is_verilog
        self.name = file_name(sources_of(self.design).top) if self.is_verilog else os.path.splitext(os.path.basename(self.design.files[0]))[0]
        self.module = f"{self.folder}/{module_name(None, self.name)}"
        make_folder(self.folder)
        self.steps = Steps(self.folder, self.how.prog, options.again)
        self.program = tools.tlut(self.how.program)
        self.binary = program_file(self.program)
        family = self.how.family
        self.device = DeviceSteps(options, self.steps, family, self.program, self.binary, self.path(""), self.module) if family else None
        self.built = Built(self.name, self.k, aim=self.how.aim, versions=tools.versions(self.program))

    def path(self, end: str) -> str:
        """A file of the folder."""
        return f"{self.folder}/{self.name}{end}"

    def all(self) -> Built:
        """Creates everything except the page."""
        refuse_links([path for path, _ in self.listed()])
        self.netlist()
        if self.device is not None:
            self.k, self.built.rule = self.device.choose(self.built.preparation.get("best"))
        self.built.k = self.k
        if self.options.script:
            self.script = bit_script(self.options.script, self.path(".blif"), self.path(".par"), self.path("_run.scr"))
            self.way = self.way_of_script(self.script)
        self.sizes()
        self.map()
        self.built.commands += self.specialised()
        parts = [self.certificate, self.verilog, self.picture, self.changes, self.prepared, self.compared_mapping, self.compared_values]
        with ThreadPoolExecutor(self.how.jobs or os.cpu_count() or 1) as pool:
            # The comparisons, which take longest, begin first.
            begun = {part: pool.submit(part) for part in reversed(parts)}
            told = [begun[part].result() for part in parts]
        for checks, commands in told:
            self.built.checks += checks
            self.built.commands += commands
        self.built.files = [[os.path.basename(path), what] for path, what in self.listed() if os.path.exists(path)]
        return self.built

    def listed(self) -> list[tuple[str, str]]:
        """The files with what they are."""
        module = self.module
        return [
            (self.path(".blif"), "the prepared netlist"),
            (self.path(".par"), "the parameters, with their initial values"),
            (self.path(END), "the ports and registers of the design, for the other subcommands"),
            (self.path("_t.blif"), "the mapped netlist, with each configuration bit as an input (template)"),
            (self.path(".ppc"), "the configuration bits as functions of the parameters (pack)"),
            (self.path("_spec.blif"), "the mapped netlist for the initial values"),
            (self.path(".cert"), "the certificate that no cover of the graph has less depth"),
            (f"{module}.v", "the mapped circuit in Verilog, with a port that rewrites its LUTs"),
            (f"{module}_bench.v", "its testbench"),
            (f"{module}.events", "the events of the script's run, for the testbench"),
            (self.path("_device.v"), "the mapped circuit as Yosys synthesised it for the device"),
            (self.path(".svg"), "a picture by Graphviz"),
            (self.path(".dot"), "the drawing in the language of Graphviz"),
            (self.path("_run.scr"), "the script as tlut plays it, of values of buses"),
            (self.path("_run.txt"), "what the script's run printed"),
            (self.path(".vcd"), "the run as a waveform"),
        ]

    def netlist(self) -> None:
        """The netlist and its list of parameters."""
        design, how = self.design, self.how
        reads = [*design.files, *design.cells, self.binary]
        sources = [design.settings, design.defines, design.includes, design.reader, design.by_modules]
        chosen = [*sources, how.k, how.aim, how.device, how.ks, how.rule, how.quick, how.abc, how.seconds, how.rounds, how.only, how.further]
        words = [self.name, design.parameters, *chosen, {it: self.built.versions.get(it, "") for it in ("Yosys", "ABC", "tlut")}]
        work = self.from_verilog if self.is_verilog else self.from_netlist
        self.built.preparation = self.steps.make("netlist", words, reads, [self.path(".blif"), self.path(".par"), *([self.path(END)] if self.is_verilog else [])], work)
        self.built.commands.append(self.call_shown())

    def call_shown(self) -> str:
        """The command line that creates only the netlist."""
        design, how = self.design, self.how
        words = [*design.files]
        words += ["--top", design.top, *(word for it in design.parameters for word in ("--param", it))] if self.is_verilog else []
        reader = (design.reader,) if design.reader != "verilog" else ()
        options = {"--set": design.settings, "-D": design.defines, "-I": design.includes, "--cells": design.cells, "--reader": reader}
        words += [word for option, values in options.items() for value in values for word in (option, value)]
        words += ["--by-modules"] if design.by_modules and self.is_verilog else []
        words += ["--quick"] if how.quick else ["--abc", how.abc] if how.abc else self.choice_shown()
        where = ["--out", self.folder] if self.is_verilog else ["--out", self.path(".blif")]
        if not self.is_verilog and (how.quick or how.abc):
            return shlex.join(["cp", design.files[0], self.path(".blif")])
        return shlex.join(["flow", "verilog" if self.is_verilog else "prepare", *words, *where])

    def choice_shown(self) -> list[str]:
        """The arguments that choose among preparations."""
        how = self.how
        chosen = ["--device", how.device] if how.device else []
        chosen += [] if how.ks else ["--k", str(how.k)]
        words = [*chosen, "--for", how.aim, *(["--rule", how.rule] if how.rule else []), *(["--rounds", str(how.rounds)] if how.rounds > 1 else [])]
        return words + [word for option, values in (("--try", how.further), ("--only", how.only)) for value in values for word in (option, value)]

    def from_verilog(self) -> dict[str, Any]:
        """The netlist of a design in Verilog."""
        with work_folder() as room:
            made = make(self.design, self.how, room, beside=True)
            copy(f"{room}/netlist.blif", self.path(".blif"))
            write_text(self.path(".par"), parameter_list(made.parameters))
            write_text(self.path(END), made.ports_text)
            return {**told_of(made.found, made.summary), **({"compared": BY_PARTS} if made.is_by_parts else {}), **made.quick_sums, "told": made.told}

    def from_netlist(self) -> dict[str, Any]:
        """A netlist that was given, prepared unless that was refused."""
        netlist, params = self.design.files
        if self.how.abc:
            raise Fault("--abc is for designs in Verilog; --try NAME=COMMANDS --only NAME prepares a netlist in one way")
        found = None
        with temporary_folder() as room:
            if self.how.quick:
                copy(netlist, self.path(".blif"))
            else:
                task = task_of(self.how, netlist, params)
                found = prepare(replace(task, beside=True), room, progress(self.how.prog))
                keep(found.best, self.path(".blif"))
        write_text(self.path(".par"), parameter_list(read_parameters(params)))
        keep_ports(netlist, self.path(".blif"))
        library = read_library(self.path(".blif"))
        ports = find_ports([self.path(".blif")], library.main.name)
        return told_of(found, summary(library, read_parameters(params), ports))

    def sizes(self) -> None:
        """The sizes by both rules and by ABC at some K, and the rule that is taken."""
        ks = sorted({self.k, 4, 6, *self.how.ks})
        words = [ks, self.built.versions.get("ABC", "")]
        made = self.steps.make("sizes", words, [self.path(".blif"), self.path(".par"), self.binary], [], lambda: self.measured(ks))
        self.built.sizes = made
        best = self.built.preparation.get("best")
        if best or self.built.rule:
            self.built.rule = best["rule"] if best else self.built.rule
            return
        at = {rule: made[str(self.k)][rule] for rule in RULES if self.how.rule in (None, rule)}
        order = [{"tables": 0, "depth": 1, "bits": 2, "changed": 2, "sites": 0}[name] for name in AIMS[self.how.aim]]
        fits = {rule: cells for rule, cells in at.items() if cells[1]}
        if not fits:
            raise Fault(f"tlut refuses the netlist at K {self.k}, which exceeds a limit ({next(iter(at.values()))[0]})")
        self.built.rule = min(fits, key=lambda rule: [int(fits[rule][place]) for place in order])

    def measured(self, ks: list[int]) -> dict[str, dict[str, list[str]]]:
        """The sizes at each K."""
        abc = tools.find(tools.ABC)
        with temporary_folder() as room:
            write_text(f"{room}/none.par", "")
            write_text(f"{room}/source.blif", abc_text(read_library(self.path(".blif")), {}))
            calls: dict[str, Callable[[int, str], Sizes]] = {
                "tlut": lambda k, at: sizes_by_tlut(self.program, k, self.path(".blif"), self.path(".par"), at),
                "compact": lambda k, at: sizes_by_tlut(self.program, k, self.path(".blif"), self.path(".par"), at, "--compact"),
                "inputs": lambda k, at: sizes_by_tlut(self.program, k, self.path(".blif"), f"{room}/none.par", at, "--compact"),
            }
            for words in ("if", "if -a") if abc else ():
                calls[words] = by_abc(str(abc), f"{room}/source.blif", words, self.how.seconds)
            jobs = [(k, name) for k in ks for name in calls]

            def one(job: tuple[int, str]) -> list[str]:
                at = f"{room}/{job[0]}{job[1].replace(' ', '_')}"
                os.makedirs(at)
                return calls[job[1]](job[0], at).cells()

            with ThreadPoolExecutor(self.how.jobs or os.cpu_count() or 1) as pool:
                found = dict(zip(jobs, pool.map(one, jobs)))
        return {str(k): {name: found[k, name] for name in calls} for k in ks}

    def tlut(self, step: str, words: list[str], reads: list[str], writes: list[str]) -> str:
        """A step that is a call of `tlut`; returns what it prints."""
        rule = list(RULES[self.built.rule])

        def work() -> str:
            ran = tools.run([self.program, *rule, *words])
            if ran.returncode:
                raise refusal_of(ran, written=writes)
            return ran.stdout

        return str(self.steps.make(step, [rule, words], [*reads, self.binary], writes, work))

    def shown(self, words: list[str]) -> str:
        """A call of `tlut` as it could be given."""
        return shlex.join([*RULE_NAMES[self.built.rule].split(), *words])

    def map(self) -> None:
        """The template and the pack."""
        words = ["map", str(self.k), self.path(".blif"), self.path(".par"), self.path("_t.blif"), self.path(".ppc")]
        self.tlut("map", words, [self.path(".blif"), self.path(".par")], [self.path("_t.blif"), self.path(".ppc")])
        self.built.commands.append(self.shown(words))

    def specialised(self) -> list[str]:
        """The netlist for the initial values; returns the call."""
        words = ["spec", str(self.k), self.path(".blif"), self.path(".par"), self.path("_spec.blif")]
        self.tlut("spec", words, [self.path(".blif"), self.path(".par")], [self.path("_spec.blif")])
        return [self.shown(words)]

    def certificate(self) -> tuple[list[list[str]], list[str]]:
        """The certificate of the depth, and its audit."""
        files = [str(self.k), self.path(".blif"), self.path(".par"), self.path(".cert")]
        self.tlut("prove", ["prove", *files], [self.path(".blif"), self.path(".par")], [self.path(".cert")])
        said = self.tlut("audit", ["audit", *files], files[1:], []).strip()
        check = ["no cover of the netlist's graph has less depth", f"{RULE_NAMES[self.built.rule]} audit, from the certificate", said, "ok"]
        return [check], [self.shown(["prove", *files]), self.shown(["audit", *files])]

    def verilog(self) -> tuple[list[list[str]], list[str]]:
        """The circuit in Verilog, and what a device counts of it."""
        checks, commands = self.hardware()
        if self.device is not None:
            source = self.path(END) if self.is_verilog else self.design.files[0]
            self.built.device = self.device.count(source, self.k, self.built.rule, self.way)
            if self.script:
                checks += self.device.played(self.script, read_text(self.path("_run.txt")), self.way)
        return checks, commands

    def hardware(self) -> tuple[list[list[str]], list[str]]:
        """The run of the script, and the circuit in Verilog, which also plays it if Icarus Verilog is installed."""
        files, script, module = [self.path("_t.blif"), self.path(".ppc")], self.script, self.module
        words = ["hdl", *files, *self.way.words, "--module", os.path.basename(module), "--out", self.folder]
        if not script:
            self.steps.make("verilog", words, files, [f"{module}.v", f"{module}_bench.v"], lambda: write_module(self.hdl(), self.folder, None))
            return [], [shlex.join(["flow", *words])]
        run = ["run", str(self.k), self.path(".blif"), self.path(".par"), script, "0", "0"]
        printed = self.tlut("run", run, [self.path(".blif"), self.path(".par"), script], [])
        write_text(self.path("_run.txt"), printed)
        ports = [self.path(".blif"), self.path(".par")]
        show = ["show", *ports, *self.options.view.words]
        self.built.shown = self.steps.make("values", [show, printed], ports, [], partial(self.values, script, printed))
        words += ["--script", script, *(["--simulate"] if tools.find(tools.ICARUS) else [])]
        writes = [f"{module}.v", f"{module}_bench.v", f"{module}.events"]
        check = self.steps.make("verilog", [words, printed, self.how.seconds], [*files, script], writes, partial(self.simulated, script, printed))
        wave = ["wave", *ports, script]
        self.steps.make("waveform", [printed], [*ports, script], [self.path(".vcd")], partial(self.waveform, script, printed))
        given, text, dump = self.options.script or script, shlex.quote(self.path("_run.txt")), shlex.quote(self.path(".vcd"))
        made = [] if script == given else [f"{shlex.join(['flow', 'script', *ports])} < {shlex.quote(given)} > {shlex.quote(script)}"]
        shown = [*made, f"{self.shown(run)} > {text}", f"{shlex.join(['flow', *words])} < {text}"]
        return [check], [*shown, f"{shlex.join(['flow', *wave])} < {text} > {dump}"]

    def way_of_script(self, script: str) -> Way:
        """How bits are changed in a run: an upset may be of any bit, so each one is writable then."""
        if self.way.bits == "all" or not any(line.tokens[0] == "upset" for line in logical_lines(read_text(script))):
            return self.way
        if self.options.bits:
            self.steps.say(f"--bits {self.options.bits} becomes --bits all, since the script has upsets, which may be of any bit")
        return replace(self.way, bits="all")

    def circuit(self) -> Circuit:
        """The mapped circuit."""
        return read_circuit(self.path("_t.blif"), self.path(".ppc"))

    def hdl(self) -> Module:
        """The mapped circuit in Verilog."""
        return module_of(self.circuit(), self.way, os.path.basename(self.module))

    def run_of(self, script: str, printed: str) -> Run:
        """The run of a script that printed this."""
        return read_run(self.path(".blif"), self.path(".par"), script, printed, self.path("_run.txt"))

    def values(self, script: str, printed: str) -> str:
        """The lines of the run with buses as numbers."""
        played = self.run_of(script, printed)
        return "".join(f"{line}\n" for line in Viewer(played.interface, self.options.view).lines(played.output))

    def waveform(self, script: str, printed: str) -> None:
        """Writes the run as a waveform."""
        played = self.run_of(script, printed)
        played.check_end()
        write_text(self.path(".vcd"), played.waveform())

    def simulated(self, script: str, printed: str) -> list[str]:
        """Creates the Verilog, and says what the simulation showed."""
        what, by = "the Verilog plays the script as the run did", "Icarus Verilog"
        module = self.hdl()
        recording = read_recording(script, module.circuit.inputs, printed, self.path("_run.txt"))
        write_module(module, self.folder, recording)
        if tools.find(tools.ICARUS) is None:
            return [what, by, "Icarus Verilog isn't there", "missing"]
        try:
            return [what, by, simulated(module, self.folder, recording, [], self.how.seconds), "ok"]
        except Undecided as stopped:
            return [what, by, str(stopped), "open"]

    def picture(self) -> tuple[list[list[str]], list[str]]:
        """The drawing, and a picture of it if Graphviz is installed and the circuit isn't too large."""
        files = [self.path("_t.blif"), self.path(".ppc")]
        tables = int(self.built.sizes[str(self.k)][self.built.rule][0])
        end = ".svg" if tools.find(tools.DOT) and tables <= DRAWN else ".dot"
        words = ["draw", *files, *(["--all"] if tables > DRAWN else []), "--out", self.path(end)]
        self.steps.make("picture", [words, self.built.versions.get("Graphviz", "")], files, [self.path(end)], lambda: draw(self.circuit(), self.path(end)))
        return [], [shlex.join(["flow", *words])]

    def changes(self) -> tuple[list[list[str]], list[str]]:
        """How many bits changes rewrite."""
        nets = list(read_parameters(self.path(".par")))
        if nets:
            kinds = {"a value": list(buses_of(nets).values()), "a bit": [Bus(net, (net,)) for net in nets]}

            def work() -> dict[str, list[int]]:
                with temporary_folder() as room:
                    return {kind: rewritten(self.program, os.path.abspath(self.path(".ppc")), changes_of(nets, buses), room) for kind, buses in kinds.items()}

            self.built.changes = self.steps.make("changes", [nets], [self.path(".ppc"), self.binary], [], work)
        return [], []

    def compared_mapping(self) -> tuple[list[list[str]], list[str]]:
        """The mapped netlist against the prepared one, by ABC."""
        pair = Pair(self.path(".blif"), self.path("_t.blif"), pack=self.path(".ppc"))
        return self.comparison("check of the mapping", "the mapped netlist with its pack is the prepared netlist, for all values of the parameters", pair)

    def compared_values(self) -> tuple[list[list[str]], list[str]]:
        """The netlist for the initial values against the prepared one, by ABC."""
        pair = Pair(self.path(".blif"), self.path("_spec.blif"), params=self.path(".par"))
        return self.comparison("check of the specialised netlist", "the netlist for the initial values is the prepared netlist with these values", pair)

    def comparison(self, name: str, what: str, pair: Pair) -> tuple[list[list[str]], list[str]]:
        """A comparison by ABC, as a step."""
        check = self.steps.make(name, [pair.words, self.how.seconds, self.built.versions.get("ABC", "")], pair.files, [], lambda: self.compared(what, pair))
        return [check], [shlex.join(["flow", *pair.words])]

    def prepared(self) -> tuple[list[list[str]], list[str]]:
        """What showed that the prepared netlist is the source, without a call."""
        return [self.prepared_check()], []

    def prepared_check(self) -> list[str]:
        """What showed that the prepared netlist is the source."""
        what = "the prepared netlist is the one that preparations started from"
        compared = self.built.preparation.get("compared")
        if self.built.preparation.get("sums"):
            return ["the prepared netlist, whose sums are tables, is the design", str(compared), "its sums are equal, and the whole under the drawn values", "ok"]
        if compared:
            return [what, f"{compared}, flip-flop by flip-flop" if compared == WHOLE else compared, "equal", "ok"]
        return [what, "nobody", "one preparation was used, without a comparison" if self.is_verilog else "it is the same file", "open" if self.is_verilog else "ok"]

    def compared(self, what: str, pair: Pair) -> list[str]:
        """What a comparison says; a difference is a fault."""
        if tools.find(tools.ABC) is None:
            return [what, "ABC", "ABC isn't there", "missing"]
        try:
            return [what, "ABC", compare(pair, self.how.seconds), "ok"]
        except Undecided as why:
            return [what, "ABC", str(why), "open"]


def by_abc(abc: str, source: str, words: str, seconds: float) -> Callable[[int, str], Sizes]:
    """The commands by which ABC maps a netlist, with arguments of its mapper."""
    return lambda k, folder: sizes_by_abc(abc, k, source, words[2:], folder, seconds)
