"""Checks of the built program over real files and streams; `tests/real_files.py` runs them."""
