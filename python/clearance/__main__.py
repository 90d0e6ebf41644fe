"""`python3 -m clearance` is the command `clearance`."""

import sys


def main():
    """The command. An interrupt ends it quietly, also while it is being loaded."""
    try:
        from . import cli

        return cli.main()
    except KeyboardInterrupt:
        return 130


if __name__ == "__main__":
    sys.exit(main())
