"""Tests of reports of models."""
