"""The help of `orgs`, made by `argparse` of the table of options that `parsing` has."""
from __future__ import annotations

import argparse
from typing import Any, Dict

from .parsing import COMMON, Command, Option, usage


class _Help(argparse.HelpFormatter):
    """Fills the description, and keeps the lines of the example."""

    def _fill_text(self, text: str, width: int, indent: str) -> str:
        return text if text.startswith("example:") else super()._fill_text(text, width, indent)


def help_of(name: str, command: Command) -> str:
    """The help of a subcommand."""
    example = "example:\n" + "".join("    %s\n" % line for line in command.example.split("\n"))
    parser = argparse.ArgumentParser(prog="orgs " + name, usage=usage(name, command)[len("usage: "):].rstrip(),
                                     description="%s. %s" % (command.brief.capitalize(), command.more), epilog=example,
                                     formatter_class=_Help, add_help=False)
    shown = [known for known in (*COMMON, *command.options) if not known.hidden or "--help" in known.names]
    for known in sorted(shown, key=lambda known: "--help" not in known.names):
        _add(parser, known)
    return parser.format_help().rstrip()


def _add(parser: argparse.ArgumentParser, known: Option) -> None:
    """Puts an option into the help."""
    said: Dict[str, Any] = {"help": known.help, "dest": known.to}
    if known.metavar is None:
        said["action"] = "store_true"
    elif known.choices:
        said["choices"] = known.choices
    else:
        said["metavar"] = known.metavar
    parser.add_argument(*known.names, **said)
