"""Runs the program isort that fihroste carries, in place of this process."""

from fihroste.__main__ import main

if __name__ == "__main__":
    main()
