"""What a user has done by a command: a page of a failing run, a certificate that is kept, a unit that is checked again."""
import os

from ..pages import page_of, page_unit
from ..program import Program
from .client import INFO
from .documents import path_of, plain_name, uri_of
from .messages import INVALID_PARAMS, REQUEST_FAILED, Fault

NAMES = ("remduska.showRun", "remduska.keepCertificate", "remduska.checkAgain")


def execute(server, command, arguments):
    """Does a command with its arguments: the URI of a file, the name of a unit, and a choice that some take."""
    done = {"remduska.showRun": show_run, "remduska.keepCertificate": keep_certificate, "remduska.checkAgain": check_again}.get(command)
    if done is None:
        raise Fault(INVALID_PARAMS, f"there is no command {command}")
    uri, name, choice = [*(arguments or []), None, None, None][:3]
    live = server.lives.of.get(uri)
    if live is None:
        raise Fault(INVALID_PARAMS, "the file is not open")
    return done(server, live, name, choice)


def show_run(server, live, name, label=None):
    """Writes the page of a file, opened at the run of a unit, and has it shown."""
    verdict = live.verdict(name) if name else None
    if verdict is None or not verdict.runs:
        raise Fault(REQUEST_FAILED, f"of `{name}` there is no run that fails")
    if isinstance(label, int) and 0 <= label < len(verdict.runs):
        live.chosen[name] = label
    document = live.document
    os.makedirs(live.pages, exist_ok=True)
    path = os.path.join(live.pages, f"{plain_name(document.path)}.html")
    units = [unit_of_page(live, it.name) for it in document.source.units if it.kind != "field"]
    with open(path, "w", encoding="utf-8") as it:
        it.write(page_of(document.path, document.text.data, [unit for unit in units if unit is not None]))
    uri = f"{uri_of(path)}#{name}"
    server.client.show_page(uri)
    server.client.refresh()
    return {"uri": uri}


def unit_of_page(live, name):
    """What a page tells of a unit, where something is known of it."""
    it = live.verdict(name)
    return page_unit(live.document.source, name, it.verdict, it.is_proved, it.why, it.runs) if it is not None else None


def keep_certificate(server, live, name, folder=None):
    """Writes the certificates of the units of a file of which one is proved, beside the file or into a folder."""
    verdict = live.verdict(name) if name else None
    if verdict is None or not verdict.is_proved:
        raise Fault(REQUEST_FAILED, f"of `{name}` there is no certificate")
    path = live.document.path
    stem = os.path.join(path_of(folder) if folder else os.path.dirname(path), plain_name(path))
    try:
        return kept(server, {"certificates": (f"{stem}.certs", Program(server.workers.paths).certificates(live.whole.whole))})
    except OSError as fault:
        raise Fault(REQUEST_FAILED, f"{fault.filename}: {fault.strerror}") from None


def kept(server, files):
    """Writes files, and tells of them."""
    for path, text in files.values():
        with open(path, "w", encoding="utf-8") as into:
            into.write(text)
    server.client.message(INFO, f"kept {' and '.join([path for path, _ in files.values()])}")
    return {name: path for name, (path, _) in files.items()}


def check_again(server, live, name, choice=None):
    """Looks at a unit as if nothing were known of it."""
    server.lives.again(live, name)
    return None
