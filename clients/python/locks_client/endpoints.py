"""Where nodes live."""
import ipaddress
import os
from collections.abc import Iterable

from .seals import lines
from .wire import MAX_NODE, MAX_PORT, ranged

LOOPBACK = "127.0.0.1"
Endpoint = int | tuple[str, int]  # a port of 127.0.0.1, or an address and a port


def endpoint_of(given: Endpoint) -> Endpoint:
    """An endpoint that a caller gives, if it is one."""
    if not isinstance(given, tuple):
        return ranged(given, 1, MAX_PORT, "port")
    address, port = given
    return endpoint_at(str(ipaddress.ip_address(address)), ranged(port, 1, MAX_PORT, "port"))


def endpoint_at(address: str, port: int) -> Endpoint:
    """The endpoint of a port at an address."""
    return port if address == LOOPBACK else (address, port)


def address_of(endpoint: Endpoint) -> tuple[str, int]:
    """The address and the port of an endpoint."""
    return endpoint if isinstance(endpoint, tuple) else (LOOPBACK, endpoint)


def family_of(address: str) -> str:
    """The family of an address."""
    return "IPv6" if ":" in address else "IPv4"


def own_address(endpoints: list[Endpoint], hosts: Iterable[str] = ()) -> str:
    """Where a client that asks these listens: on loopback if they all are 127.0.0.1, else anywhere in their family.

    ValueError if the nodes do not all live in one family, since one socket reaches only one.
    """
    addresses = [address_of(endpoint)[0] for endpoint in endpoints]
    first = addresses[0]
    for other in [*addresses, *hosts]:
        if family_of(other) != family_of(first):
            both = f"{first} is {family_of(first)} and {other} is {family_of(other)}"
            raise ValueError(f"{both}: give all nodes addresses of one family")
    if set(addresses) == {LOOPBACK}:
        return LOOPBACK
    return "::" if ":" in first else "0.0.0.0"


def host_of(line: str) -> tuple[int, str]:
    """The node and the address of a line NODE ADDRESS; else ValueError."""
    node, address = line.split(" ")
    if not node.isdecimal() or node.startswith("0"):
        raise ValueError(node)
    return ranged(int(node), 1, MAX_NODE, "node"), str(ipaddress.ip_address(address))


def read_hosts(path: str | os.PathLike[str]) -> dict[int, str]:
    """The address of each node of a file, in which nodes rise and families do not mix; else ValueError."""
    hosts: dict[int, str] = {}
    with open(path, "rb") as file:
        text = file.read()
    for number, line in lines(text):
        try:
            node, address = host_of(line)
            if hosts and (node <= max(hosts) or (":" in address) != (":" in hosts[max(hosts)])):
                raise ValueError(line)
        except ValueError as error:
            raise ValueError(f"{path}: line {number} is not NODE ADDRESS") from error
        hosts[node] = address
    return hosts
