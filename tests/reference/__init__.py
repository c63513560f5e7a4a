"""Readers of the forms of docs/FORMATS.md, written from that page and the standards, and apart from the program.

What the program and the C library have to answer is made by them in the scripts of tests/. They say what the page says to someone
who has it and the standards alone. They prove nothing.
"""
