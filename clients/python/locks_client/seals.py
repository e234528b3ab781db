"""The frames of docs/FORMATS.md: what a client with a key sends, and what it takes."""
import hmac
import os
import stat
from collections.abc import Iterator, Sequence

HEAD, TAG = 4, 32  # bytes of a frame in front of the tag, and of the tag
REQUEST, REPLY = (b"LS\x01\x02", b"locks v1 request"), (b"LS\x01\x03", b"locks v1 replies")
NO_GENESIS = bytes(32)  # a client knows its cluster by the number alone
ENCODING = "ascii"


class Seals:
    """The keys of one client of a cluster: the first seals, each of them opens. Without a key all is as it is."""

    def __init__(self, cluster: int, client: int, keys: Sequence[bytes] = ()) -> None:
        self.scope = cluster.to_bytes(8, "big") + NO_GENESIS + client.to_bytes(4, "big")
        self.keys = keys

    def sealed(self, datagram: bytes) -> bytes:
        """What is sent of a request."""
        return self.frame(REQUEST, self.keys[0], datagram) if self.keys else datagram

    def opened(self, frame: bytes) -> bytes:
        """The datagram that a node has sealed for this client, and nothing where there is none."""
        if not self.keys:
            return frame
        datagram = frame[HEAD + TAG:]
        is_its = any(hmac.compare_digest(self.frame(REPLY, key, datagram), frame) for key in self.keys)
        return datagram if is_its else b""

    def frame(self, purpose: tuple[bytes, bytes], key: bytes, datagram: bytes) -> bytes:
        """The frame of a datagram under a key."""
        head, label = purpose
        return head + hmac.digest(key, label + self.scope + datagram, "sha256") + datagram


def client_key(master: bytes, client: int) -> bytes:
    """The key of a client, which the nodes make of their master."""
    return hmac.digest(master, b"locks v1 client" + client.to_bytes(2, "big"), "sha256")


def lines(text: bytes) -> Iterator[tuple[int, str]]:
    """The lines that say something, and the number of each."""
    for number, line in enumerate(text.split(b"\n"), 1):
        if line and not line.startswith(b"#"):
            yield number, line.decode(ENCODING, "replace")


def read_keys(path: str | os.PathLike[str]) -> list[bytes]:
    """The one key or two of a file that only its owner may have; else ValueError."""
    with open(path, "rb") as file:
        if stat.S_IMODE(os.fstat(file.fileno()).st_mode) & 0o077:
            raise ValueError(f"{path}: readable by users other than its owner; set its mode to 600")
        found = [line for _, line in lines(file.read())]
    if not 1 <= len(found) <= 2 or not all(is_key(line) for line in found):
        raise ValueError(f"{path}: a key file has one key or two, each 64 hex digits on its own line")
    return [bytes.fromhex(line) for line in found]


def is_key(line: str) -> bool:
    """Whether the line is 64 hex digits."""
    return len(line) == 64 and set(line) <= set("0123456789abcdefABCDEF")
