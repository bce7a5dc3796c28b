"""The parts of tools/device_costs.py: what each measures, and how the pages show it."""
