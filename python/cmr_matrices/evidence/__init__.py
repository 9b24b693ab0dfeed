"""Evidence as values, with its texts and its pictures: graphs, decomposition trees, chains of signs, reductions and signings."""
