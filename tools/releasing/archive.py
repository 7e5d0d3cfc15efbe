"""The archive of a copy: the same bytes from the same files, wherever and whenever it is made."""
import gzip
import io
import os
import tarfile


def name_of(origin):
    """What an archive is called, and the one folder in it."""
    return f"remduska-{origin.version}{'' if origin.is_proved else '-unproved'}-linux-x86_64"


def folders(entries):
    """The folders of these files, each behind the one that it stands in."""
    found = set()
    for it in entries:
        folder = os.path.dirname(it.name)
        while folder:
            found.add(folder)
            folder = os.path.dirname(folder)
    return sorted(found)


def archive(copy) -> bytes:
    """A copy as a compressed archive. The owner is 0, all times are that of the commit, and the names are in order."""
    into, top = io.BytesIO(), name_of(copy.origin)

    def member(name, mode, kind=tarfile.REGTYPE, data=b""):
        it = tarfile.TarInfo(f"{top}/{name}" if name else top)
        it.mode, it.mtime, it.type, it.size = mode, copy.origin.seconds, kind, len(data)
        it.uname = it.gname = "root"
        tar.addfile(it, io.BytesIO(data))

    with gzip.GzipFile(filename="", mode="wb", fileobj=into, mtime=0) as packed, \
            tarfile.open(fileobj=packed, mode="w", format=tarfile.USTAR_FORMAT) as tar:
        for it in ("", *folders(copy.entries)):
            member(it, 0o755, tarfile.DIRTYPE)
        for it in copy.entries:
            member(it.name, it.mode(), data=it.data)
    return into.getvalue()
