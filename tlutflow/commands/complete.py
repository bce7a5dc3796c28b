"""`flow complete`: completion of subcommands and options in a shell."""

from __future__ import annotations

import argparse
from string import Template

HELP = "completion of subcommands and options in bash or zsh"
DESCRIPTION = """Prints a script that completes subcommands, options, the values of options that have a list, and files. It comes from the
same data as --help."""
EXAMPLE = """examples:
  source <(flow complete bash)
  flow complete bash > ~/.local/share/bash-completion/completions/tlut-flow
  autoload -U bashcompinit && bashcompinit && source <(flow complete zsh)"""

SCRIPT = Template(
    """# Completion of $names.
_tlut_flow() {
    local word="$${COMP_WORDS[COMP_CWORD]}" before="$${COMP_WORDS[COMP_CWORD - 1]}"
    if [ "$$COMP_CWORD" -eq 1 ]; then
        COMPREPLY=($$(compgen -W "$subcommands" -- "$$word"))
        return
    fi
    case "$${COMP_WORDS[1]} $$before" in
$values    esac
    case "$${COMP_WORDS[1]}" in
$options    esac
    [ "$${#COMPREPLY[@]}" -eq 0 ] && COMPREPLY=($$(compgen -f -- "$$word"))
}
complete -o filenames -F _tlut_flow $names
"""
)
NAMES = "flow ./flow tlut-flow"


def add_words(parser: argparse.ArgumentParser) -> None:
    parser.add_argument("shell", metavar="SHELL", choices=("bash", "zsh"), help="bash, or zsh with bashcompinit")


def script(subcommands: dict[str, argparse.ArgumentParser]) -> str:
    """The script for the parsers of all subcommands."""
    values, options = "", ""
    for name, parser in subcommands.items():
        listed = [word for action in parser._actions for word in action.option_strings]
        for action in parser._actions:
            if action.choices and action.option_strings:
                patterns = "|".join(f'"{name} {word}"' for word in action.option_strings)
                values += f'        {patterns}) COMPREPLY=($(compgen -W "{" ".join(map(str, action.choices))}" -- "$word")); return ;;\n'
        options += f'        {name}) [[ "$word" == -* ]] && COMPREPLY=($(compgen -W "{" ".join(listed)}" -- "$word")) ;;\n'
    return SCRIPT.substitute(names=NAMES, subcommands=" ".join(subcommands), values=values, options=options)


def run(given: argparse.Namespace) -> int:
    from tlutflow.main import parser

    print(script(subcommands_of(parser())), end="")
    return 0


def subcommands_of(parser: argparse.ArgumentParser) -> dict[str, argparse.ArgumentParser]:
    """The parsers of the subcommands, by their names."""
    found = next(action for action in parser._actions if isinstance(action, argparse._SubParsersAction))
    return dict(found.choices)
