"""The keys, certificates and passwords of a market, by the programs openssl and mosquitto_passwd. No secret is an argument of either."""

from __future__ import annotations

import ipaddress
import secrets
import shutil
import subprocess
from collections.abc import Collection, Iterable
from pathlib import Path
from tempfile import TemporaryDirectory

from ..live.node.node_errors import LiveError
from .files import OPEN, SECRET, write_file

_NEW_KEY = ("-newkey", "ec", "-pkeyopt", "ec_paramgen_curve:P-256", "-nodes")
# For how many days the CA and the broker's certificate hold.
CA_DAYS, BROKER_DAYS = 3_650, 825


def _run(program: str, package: str, *words: str) -> None:
    """Runs a program of the system. Raises LiveError."""
    path = shutil.which(program) or shutil.which(program, path="/usr/bin:/usr/sbin")
    if path is None:
        raise LiveError(f"there is no {program}: install the package {package}")
    done = subprocess.run([path, *words], stdin=subprocess.DEVNULL, capture_output=True, text=True, check=False, umask=0o077)
    if done.returncode != 0:
        raise LiveError(f"{program} {words[0]} failed: {done.stderr.strip()}")


def make_authority(folder: Path) -> None:
    """Makes the CA of the market, ca.key and ca.crt, unless it is there."""
    key, certificate = folder / "ca.key", folder / "ca.crt"
    if certificate.exists():
        return
    folder.mkdir(mode=0o700, parents=True, exist_ok=True)
    with TemporaryDirectory(dir=folder) as work:
        words = ("-x509", "-days", str(CA_DAYS), "-subj", "/CN=CA of a market")
        _run("openssl", "openssl", "req", *_NEW_KEY, *words, "-keyout", f"{work}/key", "-out", f"{work}/crt")
        write_file(key, Path(work, "key").read_text(), SECRET)
        write_file(certificate, Path(work, "crt").read_text(), OPEN)


def make_certificate(authority: Path, folder: Path, host: str) -> None:
    """Makes broker.key and broker.crt for a host, signed by the CA, unless they are there."""
    certificate = folder / "broker.crt"
    if certificate.exists():
        return
    with TemporaryDirectory(dir=authority) as work:
        Path(work, "ext").write_text(f"subjectAltName={_kind_of(host)}:{host}\n")
        _run("openssl", "openssl", "req", "-new", *_NEW_KEY, "-subj", "/CN=broker", "-keyout", f"{work}/key", "-out", f"{work}/csr")
        signed = ("-CA", str(authority / "ca.crt"), "-CAkey", str(authority / "ca.key"), "-CAserial", f"{work}/serial", "-CAcreateserial")
        more = ("-days", str(BROKER_DAYS), "-extfile", f"{work}/ext", "-out", f"{work}/crt")
        _run("openssl", "openssl", "x509", "-req", "-in", f"{work}/csr", *signed, *more)
        write_file(folder / "broker.key", Path(work, "key").read_text(), SECRET)
        write_file(certificate, Path(work, "crt").read_text(), OPEN)


def _kind_of(host: str) -> str:
    """What a host is in a certificate: an address or a name."""
    try:
        ipaddress.ip_address(host)
    except ValueError:
        return "DNS"
    return "IP"


def make_passwords(logins: Iterable[tuple[str, Path]], hashes: Path, revoked: Collection[str] = ()) -> None:
    """Draws a password for each login whose file lacks one, and adds what the broker's file of hashes lacks.

    logins:  each login, and the file of its password
    revoked: the logins that are barred: their hashes are of passwords that nobody has. A broker that reads its file again ends a connection
             whose password is another one there, and leaves one whose login is gone
    """
    kept = hashes.read_text().splitlines() if hashes.exists() else []
    known = {line.partition(":")[0] for line in kept}
    fresh: dict[str, str] = {}
    for login, path in logins:
        if not path.exists():
            write_file(path, secrets.token_hex(24) + "\n", SECRET)
            known.discard(login)
        if login not in known:
            fresh[login] = secrets.token_hex(24) if login in revoked else path.read_text().strip()
    if not fresh:
        return
    hashes.parent.mkdir(mode=0o700, parents=True, exist_ok=True)
    with TemporaryDirectory(dir=hashes.parent) as work:
        plain = Path(work, "plain")
        write_file(plain, "".join(f"{login}:{password}\n" for login, password in fresh.items()), SECRET)
        _run("mosquitto_passwd", "mosquitto", "-U", str(plain))
        hashed = plain.read_text().splitlines()
    others = [line for line in kept if line.partition(":")[0] not in fresh]
    write_file(hashes, "".join(f"{line}\n" for line in (*others, *hashed)), SECRET)
