"""A hub's excerpts as a collection of TAXII 2.1, for reading: the command iodef-hub-taxii. Needs Python 3.11 only."""
