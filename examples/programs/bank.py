#!/usr/bin/env python3
"""Two tellers move money in opposite directions, and lock the two accounts in opposite orders. This program can deadlock. In this
run the second teller comes half a second later, so it does not.

usage: agents/python/goodlock bank.py
"""
import threading
import time


class Account:
    def __init__(self, balance):
        self.lock = threading.Lock()
        self.balance = balance


def transfer(giver, taker, amount):
    with giver.lock:
        with taker.lock:
            giver.balance -= amount
            taker.balance += amount


def late_teller(giver, taker, amount):
    time.sleep(0.5)
    transfer(giver, taker, amount)


def main():
    alice, bob = Account(100), Account(100)
    early = threading.Thread(target=transfer, args=(alice, bob, 30))
    late = threading.Thread(target=late_teller, args=(bob, alice, 10))
    for teller in (early, late):
        teller.start()
    for teller in (early, late):
        teller.join()
    print(f"alice has {alice.balance}, bob has {bob.balance}")


if __name__ == "__main__":
    main()
