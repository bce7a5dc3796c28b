"""What each fault of `tlut` means for a designer: what is wanted, the usual cause, and the remedy."""

from __future__ import annotations

from dataclasses import dataclass


@dataclass(frozen=True)
class Explanation:
    """What is wanted, the usual cause of the fault, and what helps."""

    wants: str
    cause: str
    remedy: str


RECIPE = "create the netlist with `flow verilog`, or with its recipe (`flow verilog --recipe`)"
TOOL = "another tool's dialect of BLIF, or a manual edit"
MADE = "write parameter lists with `flow params` and scripts with `flow script`, which know the netlist's names and widths"
SMALLER = "use a smaller K, which has fewer cuts; map a part of the design; or prepare the logic differently (`flow verilog --abc`)"
OTHERWISE = SMALLER.replace("use a", "or use a", 1)
OTHER_RULE = f"map it with `tlut --compact`, which lists no cuts and has no such limit; {OTHERWISE}"
DAMAGED = "the file was truncated or changed, or it isn't a pack"
AGAIN = "write it again with `tlut map`"
CERTIFICATE = "the certificate is for another netlist, list or K, or was changed"
PROVE = "write it again with `tlut prove` and the same K, NETLIST and PARAMS"

TEXTS = {
    "T1": Explanation(
        "text: no control bytes except tab and line ends",
        "a binary file, or a CR without an LF",
        "use a text file whose lines end in LF or CR LF",
    ),
    "T2": Explanation(
        "a \\ only as the last character of a line that continues in the next",
        "a \\ with something after it, or a name that ends in \\",
        "remove the \\; only a comment may follow it, as in `a \\ # one`",
    ),
}

AIGER = {
    "A1": Explanation(
        "aag and five numbers, M at least I + L + A",
        "another dialect, more than one blank between the numbers, or a manual edit",
        "write the file again with aigtoaig, or with Yosys's write_aiger -ascii",
    ),
    "A2": Explanation(
        "as many lines of inputs, latches, outputs and gates as the first line says, each with its numbers; then symbols",
        "lines that are missing or in another order, or two blanks instead of one",
        "compare the line with the counts of the first one; a comment needs a line c before it",
    ),
    "A3": Explanation(
        "even literals from 2 to 2M in definitions, and others up to 2M + 1",
        "a manual edit, or an M that is too small",
        "let another tool write the file again",
    ),
    "A4": Explanation(
        "one name without blanks and # for each input and output, and no two alike",
        "an output with the name of an input, for example one that the design passes through, or a name with a blank",
        "rename the symbol, or omit it: the name is then i or o with the ordinal",
    ),
    "A5": Explanation(
        "the format of 2007: five numbers",
        "properties of AIGER 1.9 (bad states, constraints, justice, fairness); ABC's write_aiger writes outputs this way if a latch starts at 1",
        "in ABC run `zero` before write_aiger, so that all latches start at 0; or use BLIF",
    ),
}

NETLISTS = {
    "B1": Explanation(
        "a command, which begins with a dot, or a row directly after .names",
        "a row after another command, or a line that lost its \\",
        "move the row under its .names line",
    ),
    "B2": Explanation(
        "one of .model .inputs .outputs .clock .names .latch .subckt .end",
        "another dialect: .gate (a netlist mapped to a library), .param, .attr, .cname or .conn (write_blif -attr, -param, -cname, -conn)",
        "write plain BLIF: write_blif without options, after abc -g AND,OR,XOR,MUX",
    ),
    "B3": Explanation(
        "a .model before everything else",
        "a text without .model, or lines after .end",
        "begin the text, and what follows an .end, with .model NAME",
    ),
    "B4": Explanation(
        "as many names as the command takes: .model one, .names one or more, .latch two to five, .subckt a model, .end none",
        TOOL,
        "check the line's names; a name can't contain blanks",
    ),
    "B5": Explanation(
        "for a cover with n inputs: n characters 0, 1 or - and then 0 or 1; without inputs: 0 or 1 alone",
        "a row that is too long or too short for its .names line",
        "count the inputs of the .names line above",
    ),
    "B6": Explanation(
        "rows of one cover that all end in 1, or all in 0",
        "a cover that lists both when it is 1 and when it is 0",
        "keep the rows that end in 1; if no row matches, the cover is 0",
    ),
    "B7": Explanation(
        ".latch INPUT OUTPUT, then both TYPE and CONTROL or neither, then 0, 1, 2 or 3 or nothing",
        "a type without a control",
        "write `re CLOCK` and then the init",
    ),
    "B8": Explanation(
        "latches with a rising edge: the type re",
        "registers with a falling edge (fe), or level-sensitive latches (ah, al, as)",
        "use the positive edge; Yosys's `dfflegalize -cell $_DFF_P_ 01` converts its registers, and a level-sensitive latch has to be rewritten as a register",
    ),
    "B9": Explanation(
        "a different name for each model",
        "two concatenated files with a model of the same name",
        "rename one of them",
    ),
    "B10": Explanation("each port once in its list", "a port in two lines of .inputs or .outputs", "remove it from one"),
    "B11": Explanation(
        "connections FORMAL=ACTUAL, each formal once",
        "an open port, or blanks around the =",
        "omit an open output; connect an input to a net",
    ),
    "B12": Explanation("a model", "an empty file, or one that a tool failed to write", RECIPE),
    "F1": Explanation(
        "a model in the text for each .subckt",
        "a Yosys cell that isn't gate logic, or a missing file",
        RECIPE,
    ),
    "F2": Explanation(
        "models that don't instantiate themselves",
        "a model that instantiates itself through others",
        "remove one of the chain's .subckt lines",
    ),
    "F3": Explanation(
        "connections to ports that the model has",
        "a port with another name, or another version of the model",
        "check the model's .inputs and .outputs",
    ),
    "F4": Explanation(
        "a net for each input of an instance",
        "an open input",
        "connect it, if need be to a constant net",
    ),
    "F5": Explanation(
        "one driver for each net",
        "two covers, latches or inputs with one name; a wire with two assigns",
        "keep one of them",
    ),
    "F6": Explanation(
        "a driver for each net that is read",
        "an alias that Yosys left in the netlist, or an input that isn't declared",
        "opt_clean -purge before write_blif; or add the net to .inputs",
    ),
    "F7": Explanation(
        "one clock",
        "a design with two clocks, or both a clock and its gated copy",
        "turn gated clocks into enables, or map the part of each clock as its own design",
    ),
    "F8": Explanation(
        "a clock that is an input of the main model",
        "a clock that the design generates: a divider, a gate, or an inverter for a falling edge",
        "clock everything at the positive edge of one input, and use enables for slower parts",
    ),
    "F9": Explanation(
        "a clock that is only used as a clock",
        "the clock read as data; often only an alias that Yosys left, a second name of the clock",
        "opt_clean -purge before write_blif; if logic reads the clock, use a register instead",
    ),
    "F10": Explanation(
        "no path from a net through logic back to itself",
        "a combinational loop: a latch built from gates, or `always @*` that keeps a value",
        "insert a register; assign a value in each branch",
    ),
}

PARAMETERS = {
    "P1": Explanation(
        "a name and 0 or 1 on each line",
        "a value for a whole bus, or a = between them",
        "write a line for each bit, for example `c0[1] 1`, or " + MADE,
    ),
    "P2": Explanation(
        "names of inputs of the main model",
        "the name of a bus, of an internal net or of an output, or another spelling",
        "write a line for each bit, for example `c0[1] 1`; parameters are input ports. " + MADE[0].upper() + MADE[1:],
    ),
    "P3": Explanation("inputs that aren't clocks", "the clock as a parameter", "remove the line"),
    "P4": Explanation("each parameter once", "two lines for one name", "keep one of them"),
}

SCRIPTS = {
    "S1": Explanation(
        "set NAME=BIT .., cycle DIGITS, upset ADDRESS, scrub, or image",
        "a value for a whole bus, several tokens after cycle, or a number after set that isn't 0 or 1",
        MADE,
    ),
    "S2": Explanation(
        "a digit for each regular input, in the order of .inputs, without clocks and parameters",
        "digits for the parameters or the clock too, or a script for another list",
        "count the remaining inputs, or " + MADE,
    ),
    "S3": Explanation(
        "names of the list's parameters",
        "an input that isn't in the list, or the name of a bus",
        "add it to the list with its initial value, or name each bit, for example `c1[2]=1`",
    ),
    "S4": Explanation("each parameter once in a set", "a bit that occurs twice in a line", "keep one, or write two sets"),
    "S5": Explanation(
        "an address below the number of configuration bits",
        "an address of another K or netlist",
        "use one below the number in the header",
    ),
    "S6": Explanation("no cycles: `bits` has no circuit", "a script for `run`", "remove the cycles, or use `run`"),
}

PACKS = {
    "K1": Explanation("a file that begins with TPPC", "the template instead of the pack, or another file", AGAIN),
    "K2": Explanation("version 1 or 2", "a pack from a later version of the program", "use the program that wrote it"),
    "K3": Explanation("the whole pack", "a truncated file", AGAIN),
    "K4": Explanation("valid names of parameters, each once, with 0 or 1", DAMAGED, AGAIN),
    "K5": Explanation("nodes in their order, no pair twice", DAMAGED, AGAIN),
    "K6": Explanation("bits that are functions of the pack's own nodes", DAMAGED, AGAIN),
    "K7": Explanation("nothing after the last bit", "two concatenated files", AGAIN),
    "K8": Explanation("numbers in their shortest form", DAMAGED, AGAIN),
}

CERTIFICATES = {
    "C1": Explanation("`depth D`, and then `claim NODE H` with its lines `path NODE NODE ..`", CERTIFICATE, PROVE),
    "C2": Explanation("claims of AND nodes, ascending", CERTIFICATE, PROVE),
    "C3": Explanation("paths from an input or a latch to the claim's node, each node a fan-in of the next", CERTIFICATE, PROVE),
    "C4": Explanation(
        "one path for a claim of 1, and K + 1 for another",
        "a certificate for another K, or a changed one",
        PROVE,
    ),
    "C5": Explanation("paths that share only nodes with a claim of at least H - 1", CERTIFICATE, PROVE),
    "C6": Explanation("claims that reach the depth of the first line", CERTIFICATE, PROVE),
}

LIMITS = {
    "L1": Explanation(
        "texts of at most 64 MiB, packs of at most 512 MiB",
        "a very large design in one file",
        "map a part of the design",
    ),
    "L2": Explanation(
        "a netlist of at most 2^22 names and connections after flattening",
        "a deep hierarchy with many instances at each level",
        "map a part of the design",
    ),
    "L3": Explanation(
        "at most 131,072 AND nodes, or 1,048,576 with `tlut --compact`",
        "a large design, or a memory built from registers",
        "map it with `tlut --compact`; or map a part of the design, for example a module that has the parameters",
    ),
    "L4": Explanation(
        "at most 4,096 minimal cuts of a node",
        "much reconvergent logic, such as multipliers and XORs, with a large K",
        OTHER_RULE,
    ),
    "L5": Explanation("at most 2^23 minimal cuts in all", "a large design with a large K", OTHER_RULE),
    "L6": Explanation(
        "LUTs whose bits and cones aren't too much work",
        "very large cones of parameters below the LUTs, such as a memory of parameters",
        f"map it with `tlut --compact`, which counts logic of parameters alone once for all LUTs; {OTHERWISE}",
    ),
    "L7": Explanation("at most 2^20 events", "a very long script", "play it in parts"),
    "L8": Explanation(
        "at most 65,535 parameters with names of at most 65,535 bytes",
        "a lookup table or a memory as parameters",
        "use fewer parameters",
    ),
}

BY_CODE = {**TEXTS, **NETLISTS, **AIGER, **PARAMETERS, **SCRIPTS, **PACKS, **CERTIFICATES, **LIMITS}

BY_WORD = {
    "usage": Explanation(
        "the arguments of one of the commands; `tlut --help` lists them",
        "too many or too few arguments, or a K that isn't a digit from 2 to 6",
        "compare with the list; PORTS and SPARES of `run` are often forgotten: use `0 0`",
    ),
    "read failed": Explanation(
        "a file that can be read",
        "a wrong name, or another current directory",
        "check the name",
    ),
    "write failed": Explanation(
        "a writable place: the files of the command (OUT; TEMPLATE and then PACK; NEW; CERT), and stdout",
        "a directory that doesn't exist or isn't yours, a full disk, or an output that is closed or that nobody reads any more",
        "if the files are complete, stdout failed: check what reads it, or the disk; otherwise check the directory of the first incomplete one",
    ),
    "port failed": Explanation(
        "at least as many spares as ports that fail",
        "a file port0.bits to port3.bits in the current directory that can't be written",
        "run in your own directory, or with more spares",
    ),
    "out of memory": Explanation(
        "memory for the cuts: about 235 MB at the limit",
        "a large design with a large K, or a memory limit",
        SMALLER,
    ),
}

# Yosys cells that remain as .subckt lines: what their names begin with, what they are, and what helps.
CELLS = [
    (
        ("$_SDFF", "$_DFFE", "$_DFF_N"),
        "a register with an enable, a reset or a falling edge",
        "dfflegalize -cell $_DFF_P_ 01 before abc",
    ),
    (
        ("$_ADFF", "$_DFF_PP", "$_DFF_PN", "$_ALDFF", "$_DFFSR"),
        "a register with an asynchronous reset",
        "async2sync, and then dfflegalize -cell $_DFF_P_ 01, before abc",
    ),
    (("$_DLATCH", "$_SR", "$dlatch"), "a level-sensitive latch", "rewrite it as a register"),
    (("$mem", "$_MEM"), "a memory", "synth converts it to registers (memory_map)"),
    (("$_TBUF", "$tribuf"), "a tristate buffer", "use a multiplexer"),
    (("$",), "a cell that isn't gate logic yet", "synth, and abc -g AND,OR,XOR,MUX, before write_blif"),
]
