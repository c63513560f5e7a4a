"""What tests/hostile_files.py tries: `rows`, `single_bytes`, `cuts`, `judgements` and `requests` have the cases; the others
make them."""
