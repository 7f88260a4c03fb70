#!/usr/bin/env python3
"""How many places the columns have for the most lines that were live at once: a model of the rule of `fact_columns`.

An order takes the last free span of its length, else of the next longer length, which is cut; else new places at the end.
This is of added orders: the places of loaded lines are never taken again, so they come on top.

    bench/places.py [LINES]        # 30,000 live lines at most
"""
import random
import sys


class Places:
    def __init__(self):
        self.free = {length: [] for length in range(1, 8)}
        self.orders = []
        self.places = self.lines = self.most = 0

    def add(self, length):
        for longer in range(length, 8):
            if self.free[longer]:
                first = self.free[longer].pop()
                if longer > length:
                    self.free[longer - length].append(first + length)
                break
        else:
            first = self.places
            self.places += length
        self.orders.append((first, length))
        self.lines += length
        self.most = max(self.most, self.lines)

    def withdraw(self):
        at = random.randrange(len(self.orders))
        first, length = self.orders[at]
        self.orders[at] = self.orders[-1]
        self.orders.pop()
        self.free[length].append(first)
        self.lines -= length

    def ratio(self):
        return self.places / self.most


def in_balance(lines, count, lengths):
    places = Places()
    for _ in range(count):
        while places.lines + 7 > lines:
            places.withdraw()
        places.add(random.choice(lengths))
    return places.ratio()


def in_turns(lines, turns):
    places = Places()
    for _ in range(turns):
        while places.orders:
            places.withdraw()
        length = random.randint(1, 7)
        while places.lines + length <= lines:
            places.add(length)
    return places.ratio()


lines = int(sys.argv[1]) if len(sys.argv) > 1 else 30_000
random.seed(1)
print(f"orders of four lines in balance: {in_balance(lines, 20 * lines, [4]):.2f}")
for times in (10, 20, 50):
    ratio = in_balance(lines, times * lines, range(1, 8))
    print(f"orders of 1 to 7 lines in balance, {times * lines:,} of them: {ratio:.2f}")
print(f"filled with one length, emptied, filled with another, 40 times: {max(in_turns(lines // 10, 40) for _ in range(60)):.1f}")
