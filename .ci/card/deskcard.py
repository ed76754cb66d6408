#!/usr/bin/env python3
"""deskcard.py FOLDER writes to FOLDER the standard input of the program deskcard, every example record in one stream, and the traces that it has to print."""
import sys

import desk
from examples import EXAMPLES


def main(folder):
    with open(folder + "/stdin", "wb") as records, open(folder + "/stdout", "w") as traces:
        records.write(b"t")
        for _, _, record, _ in EXAMPLES:
            records.write(len(record).to_bytes(4, "big") + record)
            traces.write("\n".join(desk.trace(record)) + "\n\n")


if __name__ == "__main__":
    main(sys.argv[1])
