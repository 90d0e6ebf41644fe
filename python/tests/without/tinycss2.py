"""Stands in the way of the package, for tests of a machine without it."""

raise ImportError("hidden by a test")
