"""What the companions that speak IRC have in common. Python 3.11 or later, with its standard library alone."""
