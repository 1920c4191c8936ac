"""A small market over three months, for the pictures and for periods: customers with wallets,
shops that are paid, a bank and fees, in euros and in yen. What it books is added up here as well."""

import datetime
import random

BANK, CARDS, FEES, YEN_BANK = 1000, 1100, 4000, 1200
CUSTOMERS = ("Alba Moreno", "Bengt Lindqvist", "Chiara Conti", "Daniel Okafor", "Elif Yildiz",
             "Fatima Haddad", "Grace Thompson", "Hugo Lefevre", "Ingrid Solberg", "Jonas Weber")
SHOPS = ("Fischer Books", "Green Valley Farm", "Harbour Coffee", "Nordic Bikes")
HISTORY, DEBITS_LIMITED, CREDITS_LIMITED = 8, 2, 4
PENDING, POST, VOID = 2, 4, 8
FIRST, LAST = datetime.date(2026, 9, 1), datetime.date(2026, 11, 30)
BUSY = datetime.date(2026, 11, 27)
NAMES = {BANK: "Bank, current account", CARDS: "Card payments", FEES: "Fees earned",
         YEN_BANK: "Bank, Tokyo",
         **{2001 + place: f"Wallet {name}" for place, name in enumerate(CUSTOMERS)},
         **{3001 + place: name for place, name in enumerate(SHOPS)}, 3101: "Kyoto Tea House"}
# How many transfers of a hundred of a busy day fall into each of its hours, of UTC.
HOURS = (1, 0, 0, 0, 0, 1, 2, 4, 6, 7, 8, 9, 10, 8, 6, 5, 6, 7, 8, 6, 3, 2, 1, 0)


def names_file():
    """What an accountant has in a file: a spreadsheet's, with semicolons and quotes."""
    notes = {BANK: '"Agrees with the bank; see ""Folder 3"""'}
    lines = [f'{number};"{name}";;{notes.get(number, "")}' for number, name in NAMES.items()]
    return "id;name;decimals;note\r\n" + "\r\n".join(lines) + "\r\n"


class Business:
    """Books it, and remembers what was booked: (day, id, debit account, credit account, amount)."""

    def __init__(self, ledger):
        self.ledger, self.random, self.number = ledger, random.Random(85), 500_000
        self.entries, self.holds = [], {}
        self.free = dict.fromkeys(range(2001, 2001 + len(CUSTOMERS)), 0)
        self.owed = dict.fromkeys(range(3001, 3001 + len(SHOPS)), 0)

    def book(self):
        self.ledger.set_moment(f"{FIRST} 06:00:00")
        self.ledger.batch("/accounts", [self.account(number) for number in NAMES])
        for days in range((LAST - FIRST).days + 1):
            self.play_day(FIRST + datetime.timedelta(days))

    @staticmethod
    def account(number):
        flags = {BANK: HISTORY, 2: HISTORY | DEBITS_LIMITED}.get(
            number if number == BANK else number // 1000, 0)
        return {"id": str(number), "ledger": 392 if number in (YEN_BANK, 3101) else 978,
                "code": number // 1000, "flags": flags}

    def play_day(self, day):
        """A day's batches: few on most days, one an hour on a busy one."""
        self.day = day
        if day == BUSY:
            plan = [(hour, 2 * share) for hour, share in enumerate(HOURS) if share]
        elif day == LAST:
            plan = [(8, 4), (11, 6), (13, 5)]
        else:
            plan = [(8, 2), (12, self.random.randint(3, 6)), (18, self.random.randint(2, 5))]
        for hour, count in plan:
            self.ledger.set_moment(f"{day} {hour:02}:{self.random.randint(0, 59):02}:00")
            events = [event for _ in range(count) for event in self.sale()]
            if hour == 8:
                events += self.top_ups() + self.payouts()
            if (day, hour) == (LAST, 11):
                events += self.last_holds()
            self.ledger.batch("/transfers", events)

    def transfer(self, debit, credit, amount, flags=0, **fields):
        """An event, noted where it is posted."""
        self.number += 1
        if not flags & (PENDING | VOID):
            self.entries.append((self.day, self.number, debit, credit, amount))
        return {"id": str(self.number), "debit_account_id": str(debit), "flags": flags,
                "credit_account_id": str(credit), "amount": str(amount), "ledger": 978, "code": 1,
                **fields}

    def top_ups(self):
        """Wallets that have run low are filled by card."""
        events = []
        for wallet in self.free:
            if self.free[wallet] < 120_00:
                amount = self.random.choice((150_00, 200_00, 250_00, 400_00))
                self.free[wallet] += amount
                events.append(self.transfer(CARDS, wallet, amount, code=10))
        if self.day.weekday() == 0:
            cards = sum(amount * (1 if debit == CARDS else -1)
                        for _, _, debit, credit, amount in self.entries if CARDS in (debit, credit))
            events.append(self.transfer(BANK, CARDS, cards, code=11))
        return events

    def payouts(self):
        """On Thursdays shops are paid what they are owed; on the first of a month Tokyo is."""
        events = []
        if self.day.day == 1:
            events.append({**self.transfer(YEN_BANK, 3101, 48_600), "ledger": 392})
        if self.day.weekday() != 3:
            return events
        for shop in self.owed:
            if self.owed[shop]:
                events.append(self.transfer(shop, BANK, self.owed[shop], code=12))
                self.owed[shop] = 0
        return events

    def sale(self):
        """A customer buys: at once, or by a hold that is posted whole, in part or voided."""
        wallet = self.random.choice(list(self.free))
        amount = self.random.randint(4_20, 68_90)
        if self.free[wallet] < amount:
            return []
        shop = self.random.choice(list(self.owed))
        fee = amount * 3 // 100
        order = {"user_data_64": str(70_000_000 + self.number)}
        taken, events = amount, []
        if self.random.random() < 0.3:
            hold = self.transfer(wallet, shop, amount, PENDING, timeout=86400, **order)
            taken = self.random.choice((amount, amount, amount * 3 // 4, 0))
            flags = POST if taken else VOID
            events = [hold, {**self.transfer(wallet, shop, taken, flags),
                             "pending_id": hold["id"], "amount": str(taken)}]
        else:
            events = [self.transfer(wallet, shop, amount, **order)]
        self.free[wallet] -= taken
        self.owed[shop] += taken
        if taken:
            events.append(self.transfer(shop, FEES, fee, code=2))
            self.owed[shop] -= fee
        return events

    def last_holds(self):
        """Holds that stay open: due within days, and one without an end."""
        events = []
        for place, wallet in enumerate(self.free):
            amount = min(self.free[wallet], 9_50 + 310 * place)
            self.free[wallet] -= amount
            hours = 6 + 9 * (place * 7 % 10)
            events.append(self.transfer(wallet, 3001 + place % 4, amount, PENDING,
                                        timeout=0 if place == 9 else hours * 3600))
            self.holds[self.number] = (amount, hours)
        return events

    def net(self, account, before=datetime.date.max):
        """Credits less debits of what was posted earlier than a day, of UTC."""
        return sum(amount * ((credit == account) - (debit == account))
                   for day, _, debit, credit, amount in self.entries if day < before)
