"""A plain model of one backend's machine, and how tests/random draws scripts for it and for the program."""
