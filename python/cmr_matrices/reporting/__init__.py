"""The report of a model: whether its linear program is integral, which constraints are at fault, and which to relax."""
