"""Tests of matroids by plain arithmetic."""
