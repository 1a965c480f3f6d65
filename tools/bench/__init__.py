"""Measurements of the program, beside other programs."""
