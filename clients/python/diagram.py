#!/usr/bin/env python3
"""`roadseg.diagram` by the name that it had before it was part of the package, as a program and as a module."""

import sys

import roadseg.diagram

if __name__ == "__main__":
    roadseg.diagram.main()
else:
    sys.modules[__name__] = roadseg.diagram
