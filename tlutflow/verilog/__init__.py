"""Verilog in and out: designs as Yosys reads them, and mapped circuits as modules with a port that changes their configuration."""
