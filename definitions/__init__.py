"""Reads the definitions of crates/*/specs as they are, and evaluates them."""
