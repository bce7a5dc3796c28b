"""The parts of tools/doc_facts.py: the repository that pages are compared with, and the wrong facts that it must find."""
