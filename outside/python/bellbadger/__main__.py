"""python3 -m bellbadger: the command for people."""

import sys

from .command.cli import main

if __name__ == "__main__":
    sys.exit(main())
