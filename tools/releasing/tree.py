"""What an installed copy is made of, taken from a checkout: the programs, the scripts, the pages for users and the examples."""
import os
import re
import subprocess

from . import pages
from .manifest import LIBRARY, PAGES, Entry, Origin, Refused, copy_of

TOP = os.path.dirname(os.path.dirname(os.path.dirname(os.path.realpath(__file__))))
READ_BY_SCRIPTS = {"common.sh", "installed.sh", "programs.txt"}
ONLY_BUILDS = {"build"}     # the script that a copy does without
NOT_INSTALLED = {"tests", "measures"}   # parts of these packages
ONLY_HERE = {"tools/releasing/tree.py", "tools/releasing/pages.py", "tools/releasing/archive.py", "tools/releasing/debian.py"}


def said(*words):
    """What a command says on its output, from the top; nothing where it fails or is not there."""
    try:
        done = subprocess.run(words, cwd=TOP, stdin=subprocess.DEVNULL, stdout=subprocess.PIPE, stderr=subprocess.DEVNULL)
    except OSError:
        return ""
    return done.stdout.decode(errors="surrogateescape").strip() if done.returncode == 0 else ""


def read(name):
    with open(os.path.join(TOP, name), "rb") as it:
        return it.read()


def tracked():
    """The files of the repository."""
    found = [it for it in said("git", "ls-files", "-z").split("\0") if it]
    if not found:
        raise Refused("this is no clone of the repository, so there is no commit to name")
    return [it for it in found if os.path.isfile(os.path.join(TOP, it))]


def program_files(is_proved):
    """The files of the programs by their names. Others than proved ones are refused, unless they are asked for."""
    if not is_proved:
        names = built()
        found = subprocess.run([f"{TOP}/tools/program", *names], stdin=subprocess.DEVNULL, stdout=subprocess.PIPE).stdout.decode().splitlines()
        if len(found) != len(names):
            raise Refused("a program cannot be compiled")
        return dict(zip(names, found))
    for variable in variables().values():
        if os.environ.get(variable):
            raise Refused(f"{variable} names a program, of which it is not known whether it was proved; --unproved takes it")
    states = dict(line.split(": ", 1) for line in said("bash", "-c", "top=$PWD; . tools/crates.sh; tell_programs").splitlines())
    for name in built():
        if states.get(name) != "proved":
            raise Refused(f"{name} is {states.get(name, 'not there')}; ./remduska --build proves it, and --unproved takes it as it is")
    return {name: f"{TOP}/crates/{name}/out/{name}" for name in built()}


def variables():
    """The programs, each with the variable that names another file for it."""
    lines = read("tools/programs.txt").decode().splitlines()
    return dict(it.split() for it in lines if it.strip() and not it.startswith("#"))


def built():
    """The programs that this checkout has."""
    return [it for it in variables() if os.path.isdir(f"{TOP}/crates/{it}")]


def origin(is_proved) -> Origin:
    """What a copy that is made now is made from."""
    commit, seconds = said("git", "rev-parse", "HEAD"), said("git", "log", "-1", "--format=%ct")
    kit = said("rt", "version")
    if is_proved and not kit:
        raise Refused("the command rt of the Rattle kit is not on the path, so the kit has no version to name")
    changes = "+changes" if is_changed() else ""
    return Origin(read("VERSION").decode().strip(), commit + changes, int(seconds or 0), kit or "unknown", is_proved)


def is_changed():
    """Whether a file of the repository is not as the commit has it."""
    return bool(said("git", "--no-optional-locks", "status", "--porcelain", "--untracked-files=no"))


def scripts():
    """The files of tools/ that an installed copy has beside the packages of Python: what remduska starts, and what that reads."""
    return set(re.findall(r'exec "\$top/tools/(\w+)"', read("remduska").decode())) - ONLY_BUILDS | READ_BY_SCRIPTS


def is_package(name):
    """Whether a file is of a package of Python that an installed copy has."""
    parts = name.split("/")
    return parts[0] == "tools" and len(parts) > 2 and parts[1] != "edits" and not NOT_INSTALLED & set(parts) and name not in ONLY_HERE


def from_checkout(is_proved):
    """An installed copy, as this checkout makes it."""
    names, beside = tracked(), {f"tools/{it}" for it in scripts()}
    for_users = {it for it in names if pages.is_for_users(it)}
    found = [Entry("bin/remduska", True, read("remduska")), Entry(f"{LIBRARY}/VERSION", False, read("VERSION")),
             Entry(f"{LIBRARY}/tools/help.txt", False, pages.help_text(read("tools/help.txt").decode()).encode())]
    for it in names:
        if is_package(it) or it in beside:
            found.append(Entry(f"{LIBRARY}/{it}", os.access(os.path.join(TOP, it), os.X_OK), read(it)))
    for it in for_users:
        data = pages.page(it, read(it).decode(), for_users).encode() if it.endswith(".md") else read(it)
        found.append(Entry(f"{PAGES}/{it}", False, data))
    for name, file in program_files(is_proved).items():
        with open(file, "rb") as it:
            found.append(Entry(f"{LIBRARY}/programs/{name}", True, it.read()))
    return copy_of(origin(is_proved), found)
