"""python -m locks_client"""
from .program import run

run()
