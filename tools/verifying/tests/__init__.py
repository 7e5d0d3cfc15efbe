"""Tests of the parts of `tools/verify` that need neither the program nor z3: `python3 -m unittest discover -s tools/verifying`."""
import atexit
import os
import shutil
import sys
import tempfile

sys.dont_write_bytecode = True
sys.path.insert(0, os.path.dirname(os.path.dirname(os.path.dirname(os.path.realpath(__file__)))))

os.environ["XDG_CACHE_HOME"] = tempfile.mkdtemp(prefix="verify-cache-")     # nothing that calls found before
atexit.register(shutil.rmtree, os.environ["XDG_CACHE_HOME"], True)
