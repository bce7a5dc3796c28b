"""The subcommands, a module each.

A module has HELP, one line of the list of subcommands; DESCRIPTION and EXAMPLE, the beginning and the end of its own help; `add_words`,
which adds its arguments to a parser; and `run`, which runs a call and returns its exit status.
"""
