"""A writer: it takes the lock, writes the page, works until a line comes on standard input, and writes once more.

Usage: writer.py CLUSTER CLIENT PAGE PORT..
"""
import os
import sys

sys.path.insert(0, os.path.join(os.path.dirname(os.path.abspath(__file__)), "..", "..", "clients", "python"))
import page  # noqa: E402
from locks_client import Client, NotHeld, milliseconds  # noqa: E402


def tell(number, path, fence, text):
    """Writes, and prints whether the page took it."""
    if page.write(path, fence, text):
        print(f"writer {number} writes {text!r} with fence {fence}", flush=True)
    else:
        print(f"writer {number} is refused: fence {fence}, and the page has seen {page.read(path)[0]}", flush=True)


def main():
    cluster, number, path, *ports = sys.argv[1:]
    with Client(int(cluster), int(number), [int(port) for port in ports], first=milliseconds()) as client:
        try:
            with client.lock("page") as fence:
                print(f"writer {number} holds the lock at fence {fence}", flush=True)
                tell(number, path, fence, f"first of {number}")
                sys.stdin.readline()
                tell(number, path, fence, f"second of {number}")
        except NotHeld:
            print(f"writer {number} learns that its lock was broken", flush=True)


if __name__ == "__main__":
    main()
