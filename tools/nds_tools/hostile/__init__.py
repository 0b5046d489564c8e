"""Hostile use of the program: what is made for it, what it has to answer, and the three ways in which it is tried."""
