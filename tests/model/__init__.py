"""A plain second implementation of docs/MODEL.md, and random lines that it is compared over with the program."""
