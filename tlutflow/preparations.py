"""The preparations of logic that `flow prepare` tries: sequences of ABC's commands.

The depth that the mapper finds is least for the graph as it is read, so the graph decides. A preparation restructures the logic and
leaves inputs, outputs and flip-flops as they are. Each one begins with `strash`, which also factors covers of many inputs.
"""

from __future__ import annotations

from dataclasses import dataclass

from tlutflow.arithmetic.variants import STYLES
from tlutflow.faults import Fault

# The gates that ABC's `map` may use. An inverter is almost free; a gate's delay is how many AND nodes it has on its way. Without the buffer
# ABC can't write an output that is an input or a flip-flop's state.
GENLIB = """GATE zero 0 Y=CONST0;
GATE one 0 Y=CONST1;
GATE buf 0 Y=A; PIN * NONINV 1 999 0 0 0 0
GATE inv 0.1 Y=!A; PIN * INV 1 999 0.1 0 0.1 0
GATE and2 1 Y=A*B; PIN * NONINV 1 999 1 0 1 0
GATE nand2 1 Y=!(A*B); PIN * INV 1 999 1 0 1 0
GATE or2 1 Y=A+B; PIN * NONINV 1 999 1 0 1 0
GATE nor2 1 Y=!(A+B); PIN * INV 1 999 1 0 1 0
GATE xor2 3 Y=(A*!B)+(!A*B); PIN * UNKNOWN 1 999 2 0 2 0
GATE xnor2 3 Y=(A*B)+(!A*!B); PIN * UNKNOWN 1 999 2 0 2 0
GATE mux 3 Y=(S*A)+(!S*B); PIN * UNKNOWN 1 999 2 0 2 0
"""

# How often a preparation that goes on as long as the depth falls is repeated at most.
MOST_ROUNDS = 12


@dataclass(frozen=True)
class Preparation:
    """A preparation: its name, its steps, and what is repeated before `last` as long as the graph gets fewer levels. A step is a sequence of
    commands that starts from an AND-inverter graph and leaves one; the first step starts from a netlist. Preparations share the steps with
    which they begin. With `sums` it starts from a netlist whose sums with parameters are tables in this style, and without steps it is that."""

    name: str
    steps: tuple[str, ...]
    repeated: str = ""
    last: str = ""
    sums: str = ""

    @property
    def commands(self) -> str:
        """The commands of the steps in one line."""
        return "; ".join(self.steps)

    @property
    def cost(self) -> int:
        """About how long it takes beside others."""
        return cost_of(self.commands) + cost_of(self.repeated) * MOST_ROUNDS + cost_of(self.last)

    @property
    def shown(self) -> str:
        """All commands in one line."""
        if self.sums:
            return f"{STYLES[self.sums].title}{'; ' * bool(self.steps)}{self.commands}"
        return self.commands + (f"; until the depth stays: {self.repeated}; then {self.last}" if self.repeated else "")


def cost_of(commands: str) -> int:
    """About how long commands take: how often they look for choices or balance sums of products."""
    return sum(commands.count(word) for word in ("dch", "if -g"))


START = "strash"
CHOICE = "dch; map -B 0.9; strash"
SOP = "if -g -K 6; strash"
CHOICE_SOP = f"dch; {SOP}"
SOP_4 = "if -g -K 4; strash"
QUICK = "dch; map -B 0.9; topo; strash"
# XORs, XNORs and multiplexers in a normal form, so that one that is built twice from different gates is one node.
NORMAL = "&get -n; &st -m; &st; &put; strash"
RESYN2 = "balance; rewrite; refactor; balance; rewrite; rewrite -z; balance; refactor -z; rewrite -z; balance"
RESUB = (
    "balance -l; resub -K 6 -l; rewrite -l; resub -K 6 -N 2 -l; refactor -l; resub -K 8 -l; balance -l; resub -K 8 -N 2 -l; rewrite -l; "
    "resub -K 10 -l; rewrite -z -l; resub -K 10 -N 2 -l; balance -l; resub -K 12 -l; refactor -z -l; resub -K 12 -N 2 -l; rewrite -z -l; balance -l"
)

PREPARATIONS = [
    Preparation("raw", (START,)),
    Preparation("map", (START, QUICK)),
    Preparation("dc2", (START, "dc2; dc2; balance")),
    Preparation("resyn2", (START, RESYN2)),
    Preparation("bm", (START, "dch; map; strash")),
    Preparation("g1", (START, SOP, CHOICE)),
    Preparation("g1n", (START, SOP)),
    Preparation("g1d", (START, SOP, "dch; if -K 6; strash", CHOICE)),
    Preparation("g2", (START, SOP, SOP, CHOICE)),
    Preparation("g2n", (START, SOP, SOP, "balance")),
    Preparation("dg1", (START, CHOICE_SOP, CHOICE)),
    Preparation("dg2", (START, CHOICE_SOP, CHOICE_SOP, CHOICE)),
    Preparation("g4", (START, *[SOP] * 4, CHOICE)),
    Preparation("dg4", (START, *[CHOICE_SOP] * 4, CHOICE)),
    Preparation("dg2k4", (START, f"dch; {SOP_4}", f"dch; {SOP_4}", CHOICE)),
    Preparation("gstay", (START,), SOP, CHOICE),
    Preparation("dgstay", (START,), CHOICE_SOP, CHOICE),
    Preparation("syn2", (START, "&get -n; &syn2; &put; strash")),
    Preparation("syn4", (START, "&get -n; &syn4; &put; strash")),
    Preparation("rs", (START, RESUB)),
    Preparation("rsg", (START, RESUB, SOP, SOP, CHOICE)),
    Preparation("st", (START, NORMAL)),
    Preparation("stmap", (START, NORMAL, QUICK)),
    Preparation("stg", (START, NORMAL, SOP, SOP, CHOICE)),
]
# Those of a design in Verilog that has sums with parameters.
SUM_PREPARATIONS = [
    *(Preparation(style, (), sums=style) for style in STYLES),
    *(Preparation(f"{style}_map", (START, QUICK), sums=style) for style in STYLES),
    *(Preparation(f"{style}_st", (START, NORMAL), sums=style) for style in STYLES),
]


def further(words: list[str], known: list[Preparation]) -> list[Preparation]:
    """Preparations that were given as NAME=COMMANDS."""
    found: list[Preparation] = []
    for word in words:
        name, equals, commands = word.partition("=")
        if not equals or not name.strip() or not commands.strip():
            raise Fault(f"--try {word}: it isn't NAME=COMMANDS, as short='dc2; balance'")
        if name in [it.name for it in [*known, *found]]:
            raise Fault(f"--try {word}: there is a preparation {name} already")
        found.append(Preparation(name, (f"strash; {commands.strip().rstrip(';')}; strash",)))
    return found


def chosen(names: list[str], known: list[Preparation]) -> list[Preparation]:
    """The preparations of some names, or all without names."""
    by_name = {it.name: it for it in known}
    for name in names:
        if name not in by_name:
            raise Fault(f"--only {name}: the preparations are {', '.join(by_name)}")
    return [by_name[name] for name in names] or known
