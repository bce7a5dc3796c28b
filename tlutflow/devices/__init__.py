"""Families of devices: the LUT sites of Xilinx devices, what a device counts, and the source with its parameters in registers."""
