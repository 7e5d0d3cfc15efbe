"""Tests of `tools/release`, `tools/install` and the script of an installed copy: `python3 -m unittest discover -s tools/releasing`."""
import os
import sys

sys.dont_write_bytecode = True
sys.path.insert(0, os.path.dirname(os.path.dirname(os.path.dirname(os.path.realpath(__file__)))))
