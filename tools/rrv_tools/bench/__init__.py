"""Measures the program, and compares it with other machines: `tools/run bench NAME` (README.md)."""
