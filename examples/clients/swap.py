"""Swaps a buffer with another program, three times: a filler gives full ones for empty ones.

usage: swap.py ADDRESS fill|empty
"""
import sys

from rendezvous import Session

address, part = sys.argv[1:]
with Session(address) as session:
    for turn in (1, 2, 3):
        mine = f"buffer of {turn * 100} bytes" if part == "fill" else "empty buffer"
        print(f"gave {mine}, got {session.exchange(5, mine)}")
