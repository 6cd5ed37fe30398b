"""Addresses of http and https: what counts as one, how it is written, and what is told of what it answered."""

from __future__ import annotations

import re
from urllib.parse import quote, urljoin, urlsplit, urlunsplit

from .console import Refused, escaped

# What is kept as it stands where an address is written with plain letters.
KEPT = "%/:=&?~#+!$,;'@()*[]"


def shown(url: str) -> str:
    """A URL as it is printed, without a user and a password in it."""
    return escaped(re.sub(r"(?<=//)[^/?#]*@", "", url))


def fault_of(url: str, fault: str) -> Refused:
    return Refused(f"{shown(url)}: {escaped(fault)}", 5)


def address_of(text: str, base: str = "") -> str:
    """An address of http or https in plain letters, without a user, a password and a fragment; ValueError where it is
    none."""
    parts = urlsplit(urljoin(base, text))
    if parts.scheme not in ("http", "https") or not parts.hostname or re.search(r"[\s\\]", parts.netloc):
        raise ValueError("it is no address of a server")
    host = parts.hostname.encode("idna" if not parts.hostname.isascii() else "ascii").decode("ascii")
    if not re.fullmatch(r"[A-Za-z0-9._:-]+", host):
        raise ValueError("it is no address of a server")
    place = f"[{host}]" if ":" in host else host
    port = "" if parts.port is None else f":{parts.port}"
    return urlunsplit((parts.scheme, place + port, quote(parts.path, safe=KEPT), quote(parts.query, safe=KEPT), ""))


def no_address(text: str) -> Refused:
    """That a text which was given as an address is none, with the one that is likely meant."""
    likely = f"https://{text}" if re.fullmatch(r"[A-Za-z0-9-]+(\.[A-Za-z0-9-]+)+(:\d+)?(/.*)?", text) else ""
    hint = f"; is {shown(likely)} meant?" if likely else "; one begins with https:// or http://"
    return Refused(f"{shown(text)}: it is no address of a server{hint}", 2)


def is_weaker(url: str, base: str) -> bool:
    """Whether an address that was told by https isn't itself one of https."""
    return base.startswith("https:") and not url.startswith("https:")
