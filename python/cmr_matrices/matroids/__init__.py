"""Matroids over GF(2) and GF(3) by plain arithmetic on their matrices. Nothing here runs the program."""
