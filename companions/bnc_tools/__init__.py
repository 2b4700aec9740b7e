"""What the commands beside the node have in common. Python 3.11 or later, with its standard library alone."""
