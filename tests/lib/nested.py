"""Prints the assembly text of an object with 64 branches on secrets in one another, the most that are accepted."""
import importlib.machinery
import os

BENCH = os.path.join(os.path.dirname(os.path.dirname(os.path.dirname(os.path.abspath(__file__)))), 'bench')
print(importlib.machinery.SourceFileLoader('needs', os.path.join(BENCH, 'needs')).load_module().nested_regions(64))
