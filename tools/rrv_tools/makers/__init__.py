"""Makers of guests, and of rows of the crates of cases, whose expected values come from outside of rrv."""
