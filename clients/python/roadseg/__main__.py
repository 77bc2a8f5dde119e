"""`python -m roadseg`: the prompt."""

import sys

from .prompt import main

if __name__ == "__main__":
    sys.exit(main())
