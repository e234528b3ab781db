"""Frames of sealed datagrams, and datagrams to put into them, made without the program."""
import hashlib
import hmac

NODE, REQUEST, REPLY = 1, 2, 3  # the purposes of frames
LABELS = {NODE: b"locks v1 to node", REQUEST: b"locks v1 request", REPLY: b"locks v1 replies"}


def genesis_digest(cluster, alpha, ports):
    """The digest of a genesis, whose nodes have these ports."""
    members = b"".join(node.to_bytes(4, "big") + port.to_bytes(2, "big") for node, port in sorted(ports.items()))
    return hashlib.sha256(cluster.to_bytes(8, "big") + bytes([alpha, len(ports)]) + members).digest()


def seal(key, purpose, cluster, genesis, bound, datagram):
    """The frame of a datagram for a node or a client. Clients do not name the genesis."""
    named = genesis if purpose == NODE else bytes(32)
    front = LABELS[purpose] + cluster.to_bytes(8, "big") + named + bound.to_bytes(4, "big")
    return b"LS\1" + bytes([purpose]) + hmac.new(key, front + datagram, hashlib.sha256).digest() + datagram
