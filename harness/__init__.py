"""Nodes as processes, for tests, measurements and examples."""
