"""Runs of a mapped circuit: scripts, the lines that `tlut` prints, waveforms, and what the source circuit prints."""
