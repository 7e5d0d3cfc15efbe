"""The package for Debian of a copy, which `dpkg-deb` makes from the same files below /usr."""
import os
import re
import subprocess
import tempfile

from .manifest import Entry, Refused
from .placing import put

CONTROL = """Package: remduska
Version: {version}
Architecture: amd64
Maintainer: Remduska maintainers <remduska@localhost>
Installed-Size: {kilobytes}
Depends: bash (>= 5.1), libc6 (>= {libc}), python3 (>= 3.8)
Recommends: z3
Section: devel
Priority: optional
Description: verifier for a subset of Viper, with a proved front end to Boogie
 It tells which checks of a Viper program may fail, each with a run that fails,
 and has a certificate of each method that verifies checked by a proved program.
 {programs}
"""
LICENSE = "share/remduska/LICENSE"
# Python's compiled files of the scripts belong to no package, so they are made and removed with it.
AFTER = """#!/bin/sh
set -e
if [ "$1" = configure ] && command -v py3compile >/dev/null; then py3compile -p remduska /usr/lib/remduska; fi
"""
BEFORE_REMOVAL = """#!/bin/sh
set -e
rm -rf /usr/lib/remduska/tools/__pycache__ /usr/lib/remduska/tools/*/__pycache__ /usr/lib/remduska/tools/*/*/__pycache__
"""


def version_of(origin):
    return origin.version + ("" if origin.is_proved else "~unproved")


def name_of(origin):
    """What the package is called."""
    return f"remduska_{version_of(origin)}_amd64.deb"


def libc_of(entries):
    """The oldest version of the C library that has all that the programs ask of it."""
    found = [(int(major), int(minor)) for it in entries if "/programs/" in it.name for major, minor in re.findall(rb"\0GLIBC_(\d+)\.(\d+)", it.data)]
    return "{}.{}".format(*max(found, default=(2, 17)))


def control(copy):
    told = "Its programs were proved." if copy.origin.is_proved else "Its programs were compiled and not proved."
    size = sum(len(it.data) for it in copy.entries)
    return CONTROL.format(version=version_of(copy.origin), kilobytes=size // 1024 + 1, libc=libc_of(copy.entries), programs=told)


def write(copy, path):
    """Writes the package of a copy to a file."""
    with tempfile.TemporaryDirectory(prefix="remduska-") as room:
        licenses = [it.data for it in copy.entries if it.name == LICENSE]
        usual = [Entry(f"usr/{it.name}", it.is_program, it.data) for it in copy.entries]
        usual += [Entry("usr/share/doc/remduska/copyright", False, it) for it in licenses]
        scripts = [Entry("DEBIAN/postinst", True, AFTER.encode()), Entry("DEBIAN/prerm", True, BEFORE_REMOVAL.encode())]
        for it in [*usual, *scripts, Entry("DEBIAN/control", False, control(copy).encode())]:
            put(os.path.join(room, it.name), it)
        os.chmod(room, 0o755)
        words = ["dpkg-deb", "--root-owner-group", "-Zxz", "--build", room, path]
        try:
            done = subprocess.run(words, stdin=subprocess.DEVNULL, stdout=subprocess.PIPE, stderr=subprocess.STDOUT,
                                  env={**os.environ, "SOURCE_DATE_EPOCH": str(copy.origin.seconds)})
        except OSError as fault:
            raise Refused(f"dpkg-deb cannot be run: {fault.strerror}") from None
        if done.returncode != 0:
            raise Refused(f"dpkg-deb: {done.stdout.decode(errors='replace').strip()}")

