"""Tests of tables of classes."""
