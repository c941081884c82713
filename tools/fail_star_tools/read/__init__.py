"""Readers of what the programs, compilers and linkers write."""
