"""Hands three items over to whoever takes them from queue 3, and tells which requests took them.

usage: producer.py ADDRESS
"""
import sys

from rendezvous import Session

with Session(sys.argv[1]) as session:
    for item in ("first", "second", "third"):
        receipt = session.transfer(3, item)
        print(f"{item} was received, as request {receipt.by.number} of its consumer")
