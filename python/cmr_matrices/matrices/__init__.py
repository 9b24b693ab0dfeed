"""Matrices with entries -1, 0 and 1: their lines and names, what they are made from, their submatrices and their texts."""
