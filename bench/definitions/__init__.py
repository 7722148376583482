"""Definitions that run: the definitions of the clauses of accepted code, translated into Python by a program, and
run."""
