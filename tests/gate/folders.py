"""Puts the folders of tests on the path of modules, by being imported: so a script of this folder runs from anywhere."""

import os
import sys

HERE = os.path.dirname(os.path.abspath(__file__))
ROOT = os.path.dirname(os.path.dirname(HERE))
TESTS = os.path.dirname(HERE)
SHARED = ("oracle", "make", "run", os.path.join("gate", "client_tests"), os.path.join("gate", "crash_tests"))

sys.path[1:1] = [os.path.join(TESTS, name) for name in SHARED]
