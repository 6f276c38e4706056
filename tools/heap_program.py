"""The program that the tools run, and the words that they are started with."""

import argparse
import os
import sys

TOOL = os.path.abspath(os.path.join(os.path.dirname(__file__), "..", "bin", "heap_tool"))


def parser_of(told):
    """It ends with a line of usage where the words are others, or with all that is told for --help."""
    how = argparse.RawDescriptionHelpFormatter
    return argparse.ArgumentParser(description=told, formatter_class=how)


def words_of(told, *places):
    """The words of the command line by their places, each a name, a type and what it is by default."""
    parser = parser_of(told)
    for name, kind, default in places:
        parser.add_argument(name, type=kind, nargs="?", default=default)
    words = parser.parse_args()
    return [getattr(words, name) for name, _, _ in places]


def must_be_built(program=TOOL):
    """Ends with 2 where there is no program."""
    if not os.access(program, os.X_OK):
        name = os.path.basename(sys.argv[0])
        print(f"{name}: there is no program {program}: make builds it", file=sys.stderr)
        sys.exit(2)
