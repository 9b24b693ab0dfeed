"""Matrices of any size that plain arithmetic recognises as totally unimodular, or as not. Nothing here is proved."""
