"""Certificates that no assertion of a procedure can fail: a checker that reads their form anew (docs/certificates.md)."""
