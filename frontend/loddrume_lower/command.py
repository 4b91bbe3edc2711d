"""The command line, with `-D` and `-I` as Icarus Verilog has them."""

from __future__ import annotations

import argparse
import sys
from typing import List, Optional

from .front import lower, write
from .refusal import Refusal


def _parser() -> argparse.ArgumentParser:
    parser = argparse.ArgumentParser(
        prog="python3 -m loddrume_lower",
        description="Turns ordinary Verilog into the Verilog that Loddrume reads. "
        "It wants Yosys (apt-get install yosys).",
    )
    parser.add_argument("FILES", nargs="+", help="the files of the design")
    parser.add_argument("--top", required=True, help="the name of the top module")
    parser.add_argument("-o", dest="output", required=True, metavar="DESIGN", help="the file that is written")
    parser.add_argument("--map", metavar="NAMES", help="a JSON file that says what each name of the original became")
    parser.add_argument("-D", dest="define", action="append", default=[], metavar="NAME[=TEXT]", help="defines a macro")
    parser.add_argument(
        "-I", dest="include", action="append", default=[], metavar="FOLDER", help="a folder of files that are included"
    )
    parser.add_argument("--quiet", action="store_true", help="prints no report")
    return parser


def main(words: Optional[List[str]] = None) -> int:
    """Does what the command line asks.

    The status is 1 for a design that is refused, and 2 for words that ask nothing.
    """
    asked = _parser().parse_args(words)
    try:
        result = lower(asked.top, asked.FILES, asked.define, asked.include)
        write(result, asked.output, asked.map)
    except Refusal as refusal:
        print(f"loddrume_lower: {refusal}", file=sys.stderr)
        return 1
    except OSError as error:
        print(f"loddrume_lower: {error}", file=sys.stderr)
        return 1
    except Exception as error:  # pylint: disable=broad-except
        # A design is told a fault in words, also one of this program.
        print(
            f"loddrume_lower: a fault of the front end ({type(error).__name__}: {error}); report it with the design",
            file=sys.stderr,
        )
        return 1
    if not asked.quiet:
        for account in result.accounts:
            print("\n".join(account.lines()))
    return 0
