"""`python3 -m mkstrike` is the command `strike`."""
import sys

from .command import main

if __name__ == "__main__":
    sys.exit(main())
