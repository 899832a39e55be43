"""Serving an instrument for those who have no Makefile: the command scanvolt-serve, and its parts, which tools/serve uses."""
