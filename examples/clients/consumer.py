"""Takes three items from queue 3, and waits for each.

usage: consumer.py ADDRESS
"""
import sys

from rendezvous import Session

with Session(sys.argv[1]) as session:
    for _ in range(3):
        print("took", session.take(3))
