"""The archive that the tests try: of the proved programs where they are built, and else of those that the variables name."""
import atexit
import functools
import os
import shutil
import subprocess
import tempfile
import unittest

from releasing.tree import TOP, built, variables


def room():
    """A folder of this process, which is gone when it ends."""
    found = os.path.realpath(tempfile.mkdtemp(prefix="remduska release "))
    atexit.register(shutil.rmtree, found, True)
    return found


def call(words, **how):
    """What a call gives, with its output and its errors as text."""
    return subprocess.run(words, stdin=subprocess.DEVNULL, stdout=subprocess.PIPE, stderr=subprocess.PIPE, universal_newlines=True, **how)


def without_variables():
    """This environment, in which no variable names a program."""
    return {name: value for name, value in os.environ.items() if name not in variables().values()}


def released(into, *words):
    """The names of what `tools/release` makes."""
    done = call([f"{TOP}/tools/release", "--into", into, *words], env=without_variables())
    if done.returncode == 0:
        return done.stdout.splitlines()
    if not all(os.environ.get(variables()[it]) for it in built()):
        raise unittest.SkipTest(f"no programs are built, and no variables name them ({done.stderr.strip()})")
    done = call([f"{TOP}/tools/release", "--unproved", "--into", into, *words])
    if done.returncode != 0:
        raise AssertionError(done.stderr)
    return done.stdout.splitlines()


@functools.lru_cache(maxsize=None)
def archive():
    """The path of an archive."""
    return released(room())[0]


def unpacked(into):
    """The folder that an archive has, unpacked in another one."""
    os.makedirs(into, exist_ok=True)
    shutil.unpack_archive(archive(), into)
    return os.path.join(into, os.path.basename(archive())[:-len(".tar.gz")])
