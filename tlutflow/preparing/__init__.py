"""Trials of preparations: the logic of a netlist, whole or in parts, the work that trials share, and the comparison with the source."""
