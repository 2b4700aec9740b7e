"""One session with a network for all nodes of a cluster."""
