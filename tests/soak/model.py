"""Who has to be banned: what lines and clients bring about in each jail, by the pages of the docs alone.

A jail knows of each address what became of it. Where timing leaves it open what a server saw, as of a line that is written right before its log is
rotated, or of a request whose reply never came, the address is *open*: it may be banned or not, and is never used again.
"""

import threading


class Address:
    """What became of an address of a jail."""

    def __init__(self):
        # The failures that count since its last ban, and all that ever counted; whether it is banned, and how many bans it had.
        self.failures, self.counted, self.banned, self.bans = 0, 0, False, 0
        # Where it is open: how many failures more may have counted, and whether one more ban may stand, or have stood.
        self.may_fail, self.may_ban = 0, False


class Jail:
    """A jail that bans for so many failures, for so many seconds; where bans grow each is twice as long as the last one of its address."""

    def __init__(self, number, name, maxretry, bantime, grows=False):
        self.number, self.name, self.maxretry, self.bantime, self.grows = number, name, maxretry, bantime, grows
        self.addresses = {}
        # Who writes to a log of the jail, or changes the jail, holds this.
        self.lock = threading.RLock()

    def fresh(self, family=4):
        """An address that nobody used."""
        with self.lock:
            count = len(self.addresses) + 1
            ip = f"10.{self.number}.{count >> 8}.{count & 255}" if family == 4 else f"2001:db8:{self.number}::{count:x}"
            self.addresses[ip] = Address()
            return ip

    def is_brief(self):
        """Whether bans end while it is looked on."""
        return 0 < self.bantime < 60

    def lasts(self, over):
        """How many seconds a ban of an address lasts of which so many are over; -1 where it never ends."""
        return self.bantime << over if self.grows else self.bantime

    # ---- what certainly happens

    def fails(self, ip, times=1):
        """So many failures are found, one behind the other. One of a banned address does not count, and so many that count ban it."""
        who = self.addresses[ip]
        for _ in range(times):
            if not who.banned:
                who.failures += 1
                who.counted += 1
                if who.failures >= self.maxretry:
                    self.bans(ip)

    def bans(self, ip):
        """A ban begins, and the failures of its address are forgotten."""
        who = self.addresses[ip]
        who.failures, who.banned, who.bans = 0, True, who.bans + 1

    def lets_in(self, ip):
        """A ban ends."""
        self.addresses[ip].banned = False

    def takes(self, maxretry):
        """A configuration is taken. Where it bans for another number of failures all that were counted are forgotten."""
        if maxretry != self.maxretry:
            for who in self.addresses.values():
                who.failures = 0
        self.maxretry = maxretry

    # ---- what may happen

    def may_fail(self, ip, times):
        """So many failures may be found, or the first of them, or none. Nothing certain happens to the address any more."""
        who = self.addresses[ip]
        who.may_fail = min(times, self.maxretry - who.failures)
        self.may_be_either(ip, who.may_fail == self.maxretry - who.failures)
        who.failures = 0

    def may_be_either(self, ip, may_ban=True):
        """The address may be banned or not. Nothing certain happens to it any more."""
        who = self.addresses[ip]
        who.banned, who.may_ban = False, may_ban

    # ---- what has to be in the end

    def banned(self):
        """Who has to be banned, and who may be."""
        certain = {ip for ip, who in self.addresses.items() if who.banned}
        return certain, certain | {ip for ip, who in self.addresses.items() if who.may_ban}

    def count_of_bans(self):
        """The least and the most bans that began."""
        least = sum(who.bans for who in self.addresses.values())
        return least, least + sum(who.may_ban for who in self.addresses.values())

    def count_of_failures(self, bans_of):
        """The least and the most failures that counted, where `bans_of` says how many bans an address had."""
        least = most = sum(who.counted for who in self.addresses.values())
        for ip, who in self.addresses.items():
            if who.may_ban and bans_of(ip) > who.bans:
                least += who.may_fail
                most += who.may_fail
            elif who.may_fail:
                # All of them would have banned it.
                most += who.may_fail - who.may_ban
        return least, most

    def count_of_failing(self):
        """The least and the most addresses that have failures which led to no ban yet."""
        least = sum(who.failures > 0 for who in self.addresses.values())
        return least, least + sum(who.may_fail > 0 for who in self.addresses.values())
