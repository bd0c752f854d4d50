"""Where clients search and servers listen: the variables of EPICS Base, as its own library reads them."""
import fcntl
import os
import socket
import struct
import warnings
from collections.abc import Mapping, Sequence
from typing import Union

#: "HOST", "HOST:PORT" or a pair; a host is a name or a dotted address.
Place = Union[str, tuple[str, int]]
Found = tuple[str, int]

SERVER_PORT, REPEATER_PORT = 5064, 5065
LEAST_PORT = 5001
UP, BROADCAST, LOOPBACK = 1, 2, 8
GET_FLAGS, GET_BROADCAST = 0x8913, 0x8919


def port_of(environ: Mapping[str, str], names: Sequence[str], otherwise: int) -> int:
    """The port that the first of these variables names. One that is no port, or below 5001, counts for nothing, as for EPICS Base."""
    for name in names:
        text = environ.get(name, "").strip()
        if text:
            if text.isdigit() and LEAST_PORT <= int(text) <= 65535:
                return int(text)
            warnings.warn(f"{name}={text} is no port from {LEAST_PORT} to 65535: {otherwise} is taken", stacklevel=2)
    return otherwise


def address(place: Place, port: int) -> Found:
    """The dotted address and the port of a place. Raises ValueError if there is none such."""
    host, its = place if isinstance(place, tuple) else (place, None)
    if its is None and ":" in host:
        host, _, text = host.rpartition(":")
        if not text.isdigit() or not 0 < int(text) <= 65535:
            raise ValueError(f"{place} names no port")
        its = int(text)
    try:
        return socket.gethostbyname(host), port if its is None else its
    except OSError as error:
        raise ValueError(f"{place}: {error}") from error


def listed(environ: Mapping[str, str], name: str, port: int) -> list[Found]:
    """The places that a variable lists. One that cannot be found is left out, with a warning."""
    found = []
    for place in environ.get(name, "").split():
        try:
            found.append(address(place, port))
        except ValueError as error:
            warnings.warn(f"{name}: {error}", stacklevel=2)
    return found


def broadcasts() -> list[str]:
    """The broadcast addresses of this host's interfaces, or 127.0.0.1 if it has none."""
    found = []
    with socket.socket(socket.AF_INET, socket.SOCK_DGRAM) as it:
        for _, name in socket.if_nameindex():
            asked = struct.pack("256s", name.encode())
            try:
                flags, = struct.unpack_from("H", fcntl.ioctl(it, GET_FLAGS, asked), 16)
                if flags & UP and flags & BROADCAST and not flags & LOOPBACK:
                    found.append(socket.inet_ntoa(fcntl.ioctl(it, GET_BROADCAST, asked)[20:24]))
            except OSError:
                continue
    return list(dict.fromkeys(it for it in found if it != "0.0.0.0")) or ["127.0.0.1"]


def searched(environ: Mapping[str, str]) -> list[Found]:
    """Where a client searches by datagrams: EPICS_CA_ADDR_LIST, and this host's networks unless EPICS_CA_AUTO_ADDR_LIST is NO."""
    port = port_of(environ, ["EPICS_CA_SERVER_PORT"], SERVER_PORT)
    found = listed(environ, "EPICS_CA_ADDR_LIST", port)
    if environ.get("EPICS_CA_AUTO_ADDR_LIST", "").strip().upper() != "NO":
        found += [(it, port) for it in broadcasts()]
    return list(dict.fromkeys(found))


def name_servers(environ: Mapping[str, str]) -> list[Found]:
    """Where a client searches on circuits: EPICS_CA_NAME_SERVERS."""
    return list(dict.fromkeys(listed(environ, "EPICS_CA_NAME_SERVERS", port_of(environ, ["EPICS_CA_SERVER_PORT"], SERVER_PORT))))


def served(environ: Mapping[str, str]) -> Found:
    """Where a server listens: EPICS_CAS_INTF_ADDR_LIST, at EPICS_CAS_SERVER_PORT or EPICS_CA_SERVER_PORT."""
    port = port_of(environ, ["EPICS_CAS_SERVER_PORT", "EPICS_CA_SERVER_PORT"], SERVER_PORT)
    hosts = environ.get("EPICS_CAS_INTF_ADDR_LIST", "").split()
    return (hosts[0] if hosts else "0.0.0.0", port)


def beacons(environ: Mapping[str, str]) -> list[Found]:
    """Where a server sends its beacons: to this host's repeater, and to EPICS_CAS_BEACON_ADDR_LIST."""
    port = port_of(environ, ["EPICS_CAS_BEACON_PORT", "EPICS_CA_REPEATER_PORT"], REPEATER_PORT)
    return list(dict.fromkeys([("127.0.0.1", port), *listed(environ, "EPICS_CAS_BEACON_ADDR_LIST", port)]))


def number(host: str) -> int:
    """A dotted address as a number, its first part in the highest byte."""
    return int.from_bytes(socket.inet_aton(host), "big")


def dotted(found: int) -> str:
    return socket.inet_ntoa(found.to_bytes(4, "big"))


def user() -> str:
    """The name that a client gives itself: EPICS takes it from the system."""
    for name in ("LOGNAME", "USER"):
        if os.environ.get(name):
            return os.environ[name]
    return str(os.getuid())
