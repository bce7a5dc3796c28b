"""Tests of the companion and of the wrapper `tlut`. `python3 -m tlutflow.tests` runs them all, and names those that were left out.

Expected values come from the forms of docs/formats.md, were worked out by hand, or are the texts in examples/. `data/` has templates
and packs of three examples at K 4, which the program wrote, so that no test needs it.
"""
