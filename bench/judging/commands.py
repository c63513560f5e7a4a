"""Times `cosign` on real files: commands.py PROGRAM FOLDER.

The folder has what make_files.py made. Prints lines WORK NANOSECONDS, of processor time.
"""

import resource
import subprocess
import sys

ROUNDS = 7


def spent(words, folder):
    """How many nanoseconds of processor time a command takes; it has to end with status 0."""
    def sum_of_children():
        used = resource.getrusage(resource.RUSAGE_CHILDREN)
        return used.ru_utime + used.ru_stime

    began = sum_of_children()
    subprocess.run(words, cwd=folder, check=True, stdout=subprocess.DEVNULL)
    return round((sum_of_children() - began) * 1e9)


def main():
    program, folder = sys.argv[1:]
    for number in range(ROUNDS):
        journal = f"s{number}"
        words = ["32473.2", "32473.1", "10", "4", "secret"]
        spent([program, "init-cosigner", journal, *words], folder)
        spent([program, "advance", journal, "advance"], folder)
        print("cosign", spent([program, "cosign", journal, "subtree"], folder))


if __name__ == "__main__":
    main()
