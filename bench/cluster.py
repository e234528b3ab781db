"""What the scripts beside this file share: the cluster of harness/, and the client in Python."""
import os
import sys

TOP = os.path.dirname(os.path.dirname(os.path.abspath(__file__)))
sys.path[:0] = [TOP, os.path.join(TOP, "clients", "python")]
import locks_client  # noqa: E402
from harness.cluster import Cluster, built, free_ports, genesis_text  # noqa: E402

__all__ = ["Cluster", "built", "free_ports", "genesis_text", "locks_client"]


if __name__ == "__main__":
    print(__doc__)
