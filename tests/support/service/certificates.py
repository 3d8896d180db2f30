"""Certificates for a test, which openssl makes."""
from __future__ import annotations

import ssl
import subprocess
from pathlib import Path

NAMES = ["-subj", "/CN=localhost", "-addext", "subjectAltName=IP:127.0.0.1"]
KEY = ["-newkey", "ec", "-pkeyopt", "ec_paramgen_curve:P-256", "-nodes"]


def openssl(folder: Path, *words: str) -> None:
    subprocess.run(["openssl", *words], cwd=folder, check=True, capture_output=True)


def make_authority(folder: Path, name: str) -> None:
    """An authority: NAME.pem, and NAME.key."""
    openssl(folder, "req", "-x509", *KEY, "-subj", f"/CN={name}", "-days", "2",
            "-keyout", f"{name}.key", "-out", f"{name}.pem")


def make_certificate(folder: Path, name: str, authority: str) -> None:
    """A certificate that an authority signed: NAME.pem, and NAME.key."""
    openssl(folder, "req", *KEY, *NAMES, "-keyout", f"{name}.key", "-out", f"{name}.request")
    openssl(folder, "x509", "-req", "-in", f"{name}.request", "-CA", f"{authority}.pem",
            "-CAkey", f"{authority}.key", "-CAcreateserial", "-days", "2", "-copy_extensions", "copy",
            "-out", f"{name}.pem")


def client_context(folder: Path, name: str = "") -> ssl.SSLContext:
    """A client that trusts the authority `ours`, and has a certificate, if one is named."""
    context = ssl.create_default_context(cafile=str(folder / "ours.pem"))
    context.check_hostname = False
    if name:
        context.load_cert_chain(folder / f"{name}.pem", folder / f"{name}.key")
    return context
