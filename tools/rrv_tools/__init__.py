"""The tests and tools of rrv. tools/README.md lists the modules."""
