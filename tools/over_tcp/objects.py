"""The objects that nodes are tried with."""
import hashlib
import os

from over_tcp.talking import TOP, hello

BANK = os.path.join(TOP, "examples", "bank", "object.toml")
BANK_PLAIN = os.path.join(TOP, "examples", "tests", "bank.object")
# Among two replicas and three, replica 1 leads group 0, the withdrawals, and replica 2 group 1, what is taken.
MARKET = b"""hamsaz object 1
relation student 1
relation enrolled 2
counter balance plain
counter stock keyed
invariant reference enrolled student 1
invariant low balance 0
method deposit
param a amount
effect add balance a
method withdraw
param a amount
effect subtract balance a
method fill
param k id
param a amount
effect add stock k a
method take
param k id
param a amount
guard atleast stock k a
effect subtract stock k a
method addStudent
param s id
effect insert student s
method enroll
param s id
param c id
effect insert enrolled s c
end
"""


class Place:
    """A folder with files, in which nodes are started."""

    def __init__(self, folder):
        self.folder, self.market = folder, os.path.join(folder, "market.object")
        with open(self.market, "wb") as file:
            file.write(MARKET)


def greeting(sender, of, **more):
    with open(BANK_PLAIN, "rb") as plain:
        return hello(hashlib.sha256(plain.read()).digest(), sender, of, **more)
