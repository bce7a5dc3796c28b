"""The styles in which sums are tried: which data bits select together, the last adder, and whether sums of data alone are built too."""

from __future__ import annotations

from dataclasses import dataclass

from tlutflow.arithmetic.adders import AdderKind
from tlutflow.arithmetic.modules import Style


@dataclass(frozen=True)
class Variant:
    """A style at any K: what it is in words, whether the bits of one operand select together, the last adder, and whether sums of data alone are
    built too."""

    title: str
    are_digits: bool = False
    adder: AdderKind = AdderKind.RIPPLE
    has_data: bool = False

    def style(self, k: int) -> Style:
        """The style for LUTs of K inputs."""
        return Style(k, k, k if self.are_digits else 1, self.adder, self.has_data)


STYLES = {
    "tables": Variant("sums as tables, selected by bits of equal weight"),
    "prefix": Variant("sums as tables, selected by bits of equal weight, with prefix adders", adder=AdderKind.PREFIX),
    "digits": Variant("sums as tables, selected by digits", are_digits=True),
    "alldata": Variant("sums as tables, and sums of data by the same compressors", has_data=True),
}
