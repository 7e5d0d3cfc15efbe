"""Checks a certificate as docs/certificates.md says, written apart from the proved program `prove`, to compare the two.

Numbers have 100 digits here, and a term or a step names only what stands above it."""
from .check_steps import Checker
from .check_text import Refused, need


def check(conditions, certificate):
    """None where a certificate is accepted, else the line and the reason why not."""
    checker, at = Checker(conditions), 1
    lines = certificate.split("\n")
    try:
        need(lines[0] == f"certificate {conditions.name}", "another name")
        for at, line in enumerate(lines[1:-1], 2):
            checker.line(line.split(" "))
        at = len(lines)
        need(lines[-1] == "", "the last line has no end")
        checker.finish()
    except Refused as refused:
        return at, str(refused)
    return None
