"""Runs the companion: `python3 -m tlutflow SUBCOMMAND ..`."""

import sys

try:
    from tlutflow.main import main
except KeyboardInterrupt:
    sys.exit("flow: stopped")

sys.exit(main(sys.argv[1:]))
