"""The bytes of a file with sums, from its rules alone: docs/FORMATS.md has them."""
import hashlib

MAGIC = {"a": b"locks 3a", "b": b"locks 3b"}
OTHER = {"a": "b", "b": "a"}
FACTOR = 16_381  # what a length is written times
FIELD, SUM = 4, 4  # bytes of a length, and of a sum


class Damage(Exception):
    """No stop leaves the bytes from this offset on."""


def digest(chain, piece):
    """The chain after a piece, and the bytes of its length."""
    field = (len(piece) * FACTOR).to_bytes(FIELD, "big")
    return hashlib.sha256(chain + field + piece).digest(), field


def written(name, pieces):
    """The file of that name whose frames are these pieces."""
    parts, chain = [MAGIC[name]], hashlib.sha256(MAGIC[name]).digest()
    for piece in pieces:
        chain, field = digest(chain, piece)
        parts += [field, piece, chain[:SUM]]
    return b"".join(parts)


def pieces(name, data):
    """The pieces of a file of that name, as far as they are whole. `Damage` where no stop leaves what follows."""
    magic = MAGIC[name]
    if data[: len(magic)] != magic[: len(data)]:
        raise Damage(0)
    found, at, chain = [], len(magic), hashlib.sha256(magic).digest()
    while len(data) - at >= FIELD:
        length, rest = divmod(int.from_bytes(data[at : at + FIELD], "big"), FACTOR)
        if rest:
            raise Damage(at)
        end = at + FIELD + length + SUM
        if end > len(data):
            break
        piece = data[at + FIELD : end - SUM]
        chain, _ = digest(chain, piece)
        if chain[:SUM] != data[end - SUM : end]:
            raise Damage(at)
        found.append(piece)
        at = end
    return found


def frames(name, data):
    """The bytes of each frame of a file of that name."""
    at, found = len(MAGIC[name]), []
    for piece in pieces(name, data):
        end = at + FIELD + len(piece) + SUM
        found.append(data[at:end])
        at = end
    return found


def entries(data):
    """The whole entries that bytes of format 2 begin with."""
    found, at = [], 0
    while at + FIELD <= len(data):
        end = at + FIELD + int.from_bytes(data[at : at + FIELD], "big")
        if end > len(data):
            break
        found.append(data[at:end])
        at = end
    return found


def of_generation(generation, name, entries):
    """The file of that name with these pieces, but for the generation of its Base."""
    base, *rest = entries
    return written(name, [base[:5] + generation.to_bytes(8, "big") + base[13:], *rest])


def one_before(name, data):
    """The file of the generation before this one, as if it had the same entries. Its name and its bytes."""
    entries = pieces(name, data)
    generation = int.from_bytes(entries[0][5:13], "big")
    return OTHER[name], of_generation(generation - 1, OTHER[name], entries)
