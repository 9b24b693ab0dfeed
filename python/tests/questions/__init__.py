"""Tests of questions and their answers, and plain slow programs for the same rules."""
