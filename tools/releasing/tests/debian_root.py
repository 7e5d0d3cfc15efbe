"""A root folder that has packages of Debian and nothing else, as they are installed on this machine, and commands that run in it."""
import os
import re
import shlex
import shutil
import subprocess

PATIENCE = 300.0     # seconds for which tar is waited for
ESSENTIAL = ("bash", "coreutils", "dash", "sed")   # each Debian has these; the scripts call nothing of the others
LINKS = {"bin": "usr/bin", "lib": "usr/lib", "lib64": "usr/lib64", "sbin": "usr/sbin"}
# In a namespace of its own the root gets the devices and the processes, and what follows may mount.
ENTER = 'mount --rbind /dev "$0/dev" && mount --rbind /proc "$0/proc" && eval "$1" && exec chroot "$0" /usr/bin/env -i "${@:2}"'


def missing():
    """What is not there that a root needs, or nothing."""
    for it in ("dpkg-query", "unshare", "chroot", "tar"):
        if not shutil.which(it):
            return f"{it} is not installed"
    if subprocess.run(["unshare", "-rm", "true"], stderr=subprocess.DEVNULL).returncode != 0:
        return "the system gives no namespaces to this user"
    return ""


def fields_of(package, *fields):
    form = "\\n".join([f"${{{it}}}" for it in fields])
    done = subprocess.run(["dpkg-query", "-W", f"-f={form}\\n", package], stdout=subprocess.PIPE, stderr=subprocess.DEVNULL, universal_newlines=True)
    return done.stdout.splitlines() if done.returncode == 0 else None


def with_needed(packages):
    """These packages and those that they depend on, as far as they are installed."""
    found, todo = {}, list(packages)
    while todo:
        name = todo.pop()
        said = None if name in found else fields_of(name, "db:Status-Status", "Pre-Depends", "Depends")
        if said is None or said[0] != "installed":
            continue
        found[name] = None
        todo += [re.match(r"[\w.+-]+", it.strip())[0] for it in re.split("[,|]", ",".join(said[1:])) if it.strip()]
    return sorted(found)


def is_installed(package):
    said = fields_of(package, "db:Status-Status")
    return bool(said) and said[0] == "installed"


def furnish(root, packages):
    """Puts the files of these packages, and of those that they need, below a root. Returns the names of all."""
    for name, to in LINKS.items():
        os.makedirs(os.path.join(root, to))
        os.symlink(to, os.path.join(root, name))
    names = with_needed([*ESSENTIAL, *packages])
    listed = subprocess.run(["dpkg-query", "-L", *names], stdout=subprocess.PIPE, universal_newlines=True, check=True).stdout
    files = {it for it in listed.splitlines() if it.startswith("/") and (os.path.islink(it) or os.path.isfile(it))}
    files = sorted({os.path.join(os.path.realpath(os.path.dirname(it)), os.path.basename(it))[1:] for it in files})
    copy = subprocess.Popen(["tar", "-C", "/", "--null", "-T", "-", "-cf", "-"], stdin=subprocess.PIPE, stdout=subprocess.PIPE)
    into = subprocess.Popen(["tar", "-C", root, "-xf", "-"], stdin=copy.stdout)
    copy.stdin.write("\0".join(files).encode())
    copy.stdin.close()
    copy.stdout.close()
    if into.wait(PATIENCE) or copy.wait(PATIENCE):
        raise AssertionError("the root cannot be furnished")
    for it in ("dev", "proc", "tmp", "root", "etc"):
        os.makedirs(os.path.join(root, it), exist_ok=True)
    return names


def call(root, *words, before="true", folder="/", **more):
    """What a call says in a root. `before` is a command that runs beside it first, with the root as $0."""
    variables = {"PATH": "/usr/local/bin:/usr/bin", "HOME": "/root", **more}
    words = ["-C", folder, *[f"{name}={value}" for name, value in variables.items()], *words]
    return subprocess.run(["unshare", "-rm", "bash", "-c", ENTER, root, before, *words], stdin=subprocess.DEVNULL, stdout=subprocess.PIPE,
                          stderr=subprocess.PIPE, universal_newlines=True)


def read_only(folder):
    """A command, to run first, that makes a folder of a root read-only."""
    quoted = shlex.quote(folder)
    return f'mount --bind "$0"{quoted} "$0"{quoted} && mount -o remount,ro,bind "$0"{quoted}'
