"""What tests/histories.py draws: `files` makes input files, good and bad; `words` the words of commands; `world` has the folder in
which the program runs, beside the same files in memory; `stops` ends commands at a call of the system, and cuts the power then;
`history` gives the commands one after the other."""
