"""Cases of the program: each module has classes of `testing.Case`."""
