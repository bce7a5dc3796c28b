"""The one way in which a subcommand fails."""


class Fault(Exception):
    """Why a subcommand can't go on: one clear line, which is shown on standard error."""


class Undecided(Fault):
    """A program took too long or gave up, so nothing is known."""
