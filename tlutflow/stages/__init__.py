"""The work of the subcommands, as functions over values. `commands/` reads arguments and prints; a build calls the same functions."""
