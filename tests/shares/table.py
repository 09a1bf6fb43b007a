#!/usr/bin/env python3
"""tests/shares/table.py     the table of docs/SHARES.md: how long a transmitter waits at most, for a dozen loads, in three orders."""
import os
import sys

sys.dont_write_bytecode = True
sys.path.insert(0, os.path.join(os.path.dirname(os.path.abspath(__file__)), '..', '..', 'tools'))
from share_plan import arranged, is_list, largest_gap, plan

LOADS = [
    [10, 10], [10, 5, 5], [10, 10, 1], [12, 6, 3, 3], [7, 7, 7], [9, 8, 7, 6], [15, 5, 5, 5], [16, 8, 4, 2, 1, 1], [20, 10, 5, 4, 1],
    [25, 24, 1], [13, 11, 9, 7, 5, 3, 2], [6] * 4 + [2] * 13,
]


def in_rounds(shares):
    """Each transmitter in its turn, as long as it has turns left."""
    return [address for number in range(max(turns for _, turns in shares)) for address, turns in shares if turns > number]


def row(numbers):
    shares = [(k + 1, turns) for k, turns in enumerate(numbers)]
    orders = [plan(shares)[1], arranged(shares), in_rounds(shares)]
    total = sum(numbers)
    for turns in sorted(set(numbers), reverse=True):
        those = [address for address, there in shares if there == turns]
        waits = [max(largest_gap(places, address) for address in those) for places in orders]
        ideal = ('%.2f' % (total / turns)).rstrip('0').rstrip('.')
        naive = str(waits[2]) if is_list(shares, orders[2]) else '%d, and no list' % waits[2]
        load = ' '.join('%d=%d' % share for share in shares) if turns == max(numbers) else ''
        yield '| %s | %d of %d | %s | %d | %d | %s |' % (load, turns, total, ideal, waits[0], waits[1], naive)


def main():
    print('| Load | Turns | L/k | Answered | Blocks in turn | In rounds |\n|---|---|---|---|---|---|')
    for numbers in LOADS:
        for line in row(numbers):
            print(line)


main()
