"""Linear models, read from files and from what modellers keep in memory, and their constraints as matrices."""
