"""Random requests of one tenant, of few accounts and few ids, so that retries, posts, expiry,
chains and each kind of refusal come often."""

from model import ACCOUNT_FIELDS, LINKED, MAX, TRANSFER_FIELDS

LEDGER = 7


def account(number, flags=0):
    return {**dict.fromkeys(ACCOUNT_FIELDS, 0), "id": number, "ledger": LEDGER, "code": 10,
            "flags": flags}


def transfer(number, **fields):
    return {**dict.fromkeys(TRANSFER_FIELDS, 0), "id": number, **fields}


def moves(first, many=1, **fields):
    """So many transfers from account 1 to account 2, with the ids from the first on."""
    told = {"debit_account_id": 1, "credit_account_id": 2, "amount": 1, "ledger": LEDGER, "code": 1,
            **fields}
    return [transfer(number, **told) for number in range(first, first + many)]


class Requests:
    """A stream of batches. `first` is the least id, and marks whose they are."""

    def __init__(self, random, first=100):
        self.random, self.next, self.first, self.sent = random, first, first, []

    def accounts(self):
        """The first batch: accounts 1 to 8, two of them with limits, three with histories."""
        flags = (0, 0, 2 | 8, 4 | 8, 8, 0, 0, 0)
        return [account(number, each) for number, each in enumerate(flags, 1)]

    def batch(self, most=12):
        """The next batch of transfers."""
        events = [self.event() for _ in range(self.random.randint(1, most))]
        for event in events:
            if self.random.random() < 0.12:
                event["flags"] |= LINKED
        if self.random.random() < 0.9:
            events[-1]["flags"] &= ~LINKED
        self.sent += events
        del self.sent[:-300]
        return events

    def marked(self, most=12):
        """The next batch behind a transfer that is accepted, so that a look-up tells whether it was done
        where no reply does. Its clock alone does not, as a hold may be due behind it."""
        return self.mark() + (self.batch(most - 1) if most > 1 else [])

    def mark(self):
        """A transfer that is accepted."""
        self.sent += moves(self.identity())
        return self.sent[-1:]

    def event(self):
        draw = self.random.random()
        if self.sent and draw < 0.12:
            return self.again()
        if self.sent and draw < 0.32:
            return self.ending()
        return self.new()

    def again(self):
        """A retry, sometimes with another value in a field."""
        event = dict(self.random.choice(self.sent))
        if self.random.random() < 0.4:
            field = self.random.choice(TRANSFER_FIELDS[1:-1])
            event[field] = self.random.choice((0, 1, 2, event[field] + 1))
        return self.fitting(event)

    def fitting(self, event):
        for field, bits in (("code", 16), ("ledger", 32), ("timeout", 32), ("user_data_32", 32),
                            ("user_data_64", 64)):
            event[field] %= 2**bits
        for field in ("amount", "user_data_128"):
            event[field] %= 2**128
        return event

    def identity(self):
        self.next += 1
        return self.next

    def ending(self):
        """A post or void of something that was sent."""
        named = self.random.choice(self.sent)
        amounts = (0, named["amount"], named["amount"] // 2, MAX)
        return transfer(self.identity(), pending_id=named["id"],
                        amount=self.random.choice(amounts), flags=self.random.choice((4, 4, 8)),
                        user_data_32=self.random.choice((0, 5)))

    def new(self):
        draw = self.random
        numbers = [draw.choice((1, 1, 2, 2, 3, 4, 5, 6, 9)) for _ in range(2)]
        amount = draw.choice((0, 1, draw.randrange(1000), draw.randrange(1, 100)))
        # Sums near their end, between two accounts that nothing else needs.
        if draw.random() < 0.04:
            numbers, amount = draw.sample((7, 8), 2), draw.choice((1, 2**127, MAX))
        flags = draw.choice((0, 0, 0, 2, 2, 16, 32, 48, 18, draw.randrange(1 << 7) & ~LINKED))
        return transfer(self.identity() if draw.random() < 0.97 else 0,
                        debit_account_id=numbers[0], credit_account_id=numbers[1], amount=amount,
                        ledger=LEDGER if draw.random() < 0.97 else 8, code=1, flags=flags,
                        timeout=draw.choice((0, 0, 1, 1, 2)) if flags & 2 else 0,
                        user_data_64=draw.choice((0, 2**64 - 1)),
                        user_data_128=draw.choice((0, 3)))
