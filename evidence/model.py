#!/usr/bin/env python3
"""Computes one command, as the program `vectors` does.

    python3 evidence/model.py FORMAT OP MODE A [B [C]]

The reply goes to standard output. A refusal goes to standard error, with exit status 2.
"""

import sys

from exact import commands


def main():
    """Replies to the words of the command."""
    try:
        print(commands.replied(sys.argv[1:]))
    except commands.Refusal as refusal:
        print(f"refused: {refusal}", file=sys.stderr)
        return 2
    return 0


if __name__ == "__main__":
    sys.exit(main())
