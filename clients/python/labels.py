"""`roadseg.labels` by the name that it had before it was part of the package."""

import sys

import roadseg.labels

sys.modules[__name__] = roadseg.labels
