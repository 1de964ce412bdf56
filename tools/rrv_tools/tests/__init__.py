"""Tests of the package's own libraries."""
