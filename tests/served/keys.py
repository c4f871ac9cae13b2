"""Key files and tags as docs/FORMATS.md has them, by Python's hmac. No test of itself."""
import hashlib
import hmac
import secrets


def new_key():
    """A key of random bytes."""
    return secrets.token_bytes(64)


def name_of(key):
    """The name of a key."""
    return hashlib.sha256(key).hexdigest()[:8]


def text_of(sites, clients):
    """The text of a key file with these keys."""
    lines = [f"sites {it.hex()}" for it in sites] + [f"clients {it.hex()}" for it in clients]
    return "".join(f"{it}\n" for it in lines)


def write_key(file, text, mode=0o600):
    """Writes a key file with these rights, and gives it."""
    file.write_text(text)
    file.chmod(mode)
    return file


def tagged(key, datagram):
    """The datagram with its tag."""
    return datagram + hmac.digest(key, datagram, "sha256")
