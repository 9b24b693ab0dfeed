"""The commands of the package: they lead from a model to the program, and name and draw what it wrote."""
