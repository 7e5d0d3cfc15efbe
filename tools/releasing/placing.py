"""Puts a copy below a prefix, or takes it away. What was installed there before is replaced."""
import compileall
import os
import shutil
import signal

from .manifest import LIBRARY, MANIFEST, PAGES, Refused

COMMAND = "bin/remduska"
SIGNALS = (signal.SIGINT, signal.SIGTERM, signal.SIGHUP)
OF_PACKAGE = "/var/lib/dpkg/info/remduska.list"


def look(prefix):
    """Refuses a prefix in which another's files are in the way, or Debian's package of remduska."""
    if os.path.realpath(prefix) == "/usr" and os.path.exists(OF_PACKAGE):
        raise Refused("in /usr it is a package of Debian: apt installs and removes it")
    for it in (LIBRARY, PAGES, COMMAND):
        if os.path.lexists(os.path.join(prefix, it)) and not os.path.exists(os.path.join(prefix, MANIFEST)):
            raise Refused(f"{os.path.join(prefix, it)} is there already, and no copy of remduska")


def install(copy, prefix):
    """Puts a copy below a prefix: all of it is written beside its places before anything is replaced."""
    look(prefix)
    mark = f"{os.getpid()}"
    new = {it: os.path.join(prefix, os.path.dirname(it), f".remduska-new-{mark}") for it in (LIBRARY, PAGES, COMMAND)}
    for it in SIGNALS:
        signal.signal(it, interrupted)
    try:
        for entry in copy.entries:
            part = next(it for it in new if entry.name == it or entry.name.startswith(f"{it}/"))
            put(new[part] + entry.name[len(part):], entry)
        for it in SIGNALS:
            signal.signal(it, signal.SIG_IGN)
        for it, written in new.items():
            replace(os.path.join(prefix, it), written, f"{written}-old")
    except OSError as fault:
        raise Refused(f"{fault.filename or prefix}: {fault.strerror}") from None
    finally:
        for it in new.values():
            for left in (it, f"{it}-old"):
                remove(left)
    compileall.compile_dir(os.path.join(prefix, LIBRARY), quiet=2)      # for others, who may not write there


def interrupted(number, _):
    raise Refused("interrupted")


def put(path, entry):
    """Writes a file of a copy to a path."""
    os.makedirs(os.path.dirname(path), exist_ok=True)
    with open(path, "wb") as it:
        it.write(entry.data)
    os.chmod(path, entry.mode())


def replace(place, written, old):
    """Puts what is written into its place. A file is replaced at once; of a folder the old one is moved away first, and back where the
    new one cannot be placed."""
    is_folder = os.path.isdir(place)
    if is_folder:
        os.rename(place, old)
    try:
        os.rename(written, place)
    except OSError:
        if is_folder:
            os.rename(old, place)
        raise


def remove(path):
    if os.path.isdir(path) and not os.path.islink(path):
        shutil.rmtree(path, ignore_errors=True)
    elif os.path.lexists(path):
        os.remove(path)


def uninstall(prefix):
    """Takes the copy below a prefix away, with the folders that are empty then."""
    look(prefix)
    if not os.path.exists(os.path.join(prefix, MANIFEST)):
        raise Refused(f"{prefix} has no copy of remduska")
    try:
        for it in (COMMAND, PAGES, LIBRARY):
            path = os.path.join(prefix, it)
            if os.path.isdir(path):
                shutil.rmtree(path)
            elif os.path.lexists(path):
                os.remove(path)
    except OSError as fault:
        raise Refused(f"{fault.filename or prefix}: {fault.strerror}") from None
    for it in ("bin", "lib", "share"):
        folder = os.path.join(prefix, it)
        if os.path.isdir(folder) and not os.listdir(folder):
            os.rmdir(folder)
