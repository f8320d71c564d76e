"""Runs the program isort, which stands beside this file, in place of this process."""

import os
import sys
from typing import NoReturn

from .program import PROGRAM


def main() -> NoReturn:
    os.execv(PROGRAM, [PROGRAM, *sys.argv[1:]])


if __name__ == "__main__":
    main()
