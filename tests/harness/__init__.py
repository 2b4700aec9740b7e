"""What the tests of the built program stand on: processes, sockets, and the other ends of the program's connections."""
