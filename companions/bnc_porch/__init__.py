"""Lets clients in that can't log in as a node wants it."""
