"""`python -m gix_config_value KIND TEXT` prints the canonical text of a value."""
import os
import sys

from . import KINDS, Refused, __version__, normalize


def main():
    if sys.argv[1:] == ["--version"]:
        print(f"gix_config_value {__version__}")
        return 0
    if len(sys.argv) != 3 or sys.argv[1] not in KINDS:
        print(f"usage: python -m gix_config_value {'|'.join(KINDS)} TEXT", file=sys.stderr)
        return 2
    try:
        print(normalize(sys.argv[1], os.fsencode(sys.argv[2])))
    except Refused as refused:
        print(refused, file=sys.stderr)
        return 1
    return 0


if __name__ == "__main__":
    sys.exit(main())
