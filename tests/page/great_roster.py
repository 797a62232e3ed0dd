#!/usr/bin/env python3
"""A drawn matrix of so many persons and objects as CSV: tests/page/great_roster.py SIZE"""
import random
import sys

size = int(sys.argv[1])
drawn = random.Random(size)
print("person," + ",".join(f"object {number}" for number in range(size)))
for person in range(size):
    print(f"person {person}," + ",".join(str(drawn.randrange(1000)) for _ in range(size)))
