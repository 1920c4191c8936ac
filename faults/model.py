"""One tenant's ledger as docs/MODEL.md tells it: lists that are searched and summed anew for each
question. It is written from that page alone, and as slow as it is plain."""

MAX = 2**128 - 1
LATEST = 2**62
FAILS_FOR_GOOD = {24, 44, 45, 55, 56}
LINKED = 1
DEBITS_LIMITED, CREDITS_LIMITED, HISTORY = 2, 4, 8
PENDING, POST, VOID, BALANCING_DEBIT, BALANCING_CREDIT = 2, 4, 8, 16, 32
NEWEST_FIRST = 1
# The most records that a page looks at, those that it shows among them.
MOST_LOOKED_AT = 2000

ACCOUNT_FIELDS = ("id", "user_data_128", "user_data_64", "user_data_32", "ledger", "code", "flags")
TRANSFER_FIELDS = ("id", "debit_account_id", "credit_account_id", "amount", "pending_id",
                   "user_data_128", "user_data_64", "user_data_32", "timeout", "ledger", "code",
                   "flags")
BALANCES = ("debits_pending", "debits_posted", "credits_pending", "credits_posted")
TAGS = ("user_data_128", "user_data_64", "user_data_32", "ledger", "code")


class Ledger:
    """A tenant's accounts, transfers, failed ids and clock."""

    def __init__(self):
        self.accounts, self.transfers, self.failed, self.clock = {}, {}, set(), 0
        # When holds are due, or would be had they not been undone with their chains. And from when to
        # when those would be whose batch was refused whole, at a moment that nobody is told.
        self.dues, self.refused_dues = set(), []

    # What has become of things.

    def ending(self, transfer, at):
        """`open`, `posted`, `voided` or `expired`: a pending transfer at a clock."""
        for other in self.transfers.values():
            if other["pending_id"] == transfer["id"] and other["timestamp"] <= at:
                return "posted" if other["flags"] & POST else "voided"
        due = due_of(transfer)
        return "expired" if due and due <= at else "open"

    def balances(self, account, at=None, upto=None):
        """The four sums of an account over the transfers up to a timestamp, at a clock."""
        at = self.clock if at is None else at
        sums = dict.fromkeys(BALANCES, 0)
        listed = [each for each in self.transfers.values()
                  if upto is None or each["timestamp"] <= upto]
        ended = {each["pending_id"] for each in listed if each["flags"] & (POST | VOID)}
        for each in listed:
            if each["flags"] & VOID:
                continue
            word = "posted"
            if each["flags"] & PENDING:
                due = due_of(each)
                if each["id"] in ended or (due and due <= at):
                    continue
                word = "pending"
            for side in ("debit", "credit"):
                if each[f"{side}_account_id"] == account:
                    sums[f"{side}s_{word}"] += each["amount"]
        return sums

    def reach(self, clock):
        """Comes to a later clock, at which a hold is due: between batches the service settles a tenant
        to such times by itself, also of holds that were undone. Says whether it is there."""
        if clock > self.clock and self.may_settle_at(clock):
            self.clock = clock
        return clock == self.clock

    def may_settle_at(self, clock):
        """Whether the service may settle the tenant at a clock."""
        return clock in self.dues or any(first <= clock <= last for first, last in self.refused_dues)

    def refuse(self, events, first, last):
        """Between these moments a batch of transfers was refused whole, and undone with its holds."""
        count = len(events)
        for event in events:
            if event["flags"] & PENDING and event["timeout"]:
                wait = event["timeout"] * 10**9
                self.refused_dues.append((first - count + wait, max(last, self.clock + count) + wait))

    # Batches.

    def batch(self, events, clock, transfers):
        """Judges a batch whose clock is told, and answers (number, timestamp) for each event."""
        assert clock >= self.clock + len(events)
        self.clock = clock
        for place, event in enumerate(events if transfers else ()):
            if event["flags"] & PENDING and event["timeout"]:
                stamp = clock - len(events) + 1 + place
                self.dues.add(due_of({**event, "timestamp": stamp}))
        results, first = [], 0
        for place, event in enumerate(events):
            if event["flags"] & LINKED and place + 1 < len(events):
                continue
            results += self.chain(events[first:place + 1], first, len(events), transfers)
            first = place + 1
        stamps = range(clock - len(events) + 1, clock + 1)
        return list(zip(results, stamps))

    def chain(self, events, first, count, transfers):
        """The result numbers of a chain, which stands or falls whole."""
        kept = dict(self.transfers if transfers else self.accounts)
        is_open = bool(events[-1]["flags"] & LINKED)
        for place, event in enumerate(events):
            stamp = self.clock - count + 1 + first + place
            if is_open and place + 1 == len(events):
                number = 1
            else:
                number = (self.transfer if transfers else self.account)(event, stamp)
            if number == 0:
                continue
            if transfers:
                self.transfers = kept
            else:
                self.accounts = kept
            if transfers and number in FAILS_FOR_GOOD:
                self.failed.add(event["id"])
            others = [2] * len(events)
            others[place] = number
            if is_open:
                others[-1] = 1
            return others
        return [0] * len(events)

    def account(self, event, stamp):
        """The result of an account event, which is kept where it is 0."""
        number = self.account_refusal(event)
        if number == 0:
            self.accounts[event["id"]] = {**event, "timestamp": stamp}
        return number

    def account_refusal(self, event):
        there = self.accounts.get(event["id"])
        if event.get("timestamp"):
            return 3
        if event["flags"] >> 4:
            return 4
        if event["id"] in (0, MAX):
            return 5 if event["id"] == 0 else 6
        if there:
            compared = ("flags", "user_data_128", "user_data_64", "user_data_32", "ledger", "code")
            for number, field in enumerate(compared, 7):
                if event[field] != there[field]:
                    return number
            return 13
        if event["flags"] & 6 == 6:
            return 14
        for number, field in enumerate(BALANCES, 15):
            if event.get(field):
                return number
        return 19 if event["ledger"] == 0 else 20 if event["code"] == 0 else 0

    def transfer(self, event, stamp):
        """The result of a transfer event, which is kept where it is 0."""
        number, amount = self.transfer_refusal(event)
        if number == 0:
            stored = {**event, "amount": amount, "timestamp": stamp, "at": self.clock}
            if event["flags"] & (POST | VOID):
                pending = self.transfers[event["pending_id"]]
                for field in ("debit_account_id", "credit_account_id", "ledger", "code",
                              "user_data_128", "user_data_64", "user_data_32"):
                    stored[field] = event[field] or pending[field]
            self.transfers = {**self.transfers, event["id"]: stored}
        return number

    def transfer_refusal(self, event):
        """The first result that holds, and the amount that is stored where none does."""
        flags = event["flags"]
        if event.get("timestamp"):
            return 3, 0
        if flags >> 6:
            return 4, 0
        if event["id"] in (0, MAX):
            return (5 if event["id"] == 0 else 6), 0
        there = self.transfers.get(event["id"])
        if there:
            return self.difference(event, there), 0
        if event["id"] in self.failed:
            return 60, 0
        kinds = [bit for bit in (PENDING, POST, VOID) if flags & bit]
        balancing = flags & (BALANCING_DEBIT | BALANCING_CREDIT)
        if len(kinds) > 1 or (flags & (POST | VOID) and balancing):
            return 19, 0
        return self.ending_refusal(event) if flags & (POST | VOID) else self.new_refusal(event)

    def difference(self, event, there):
        """In what a retry differs from what is stored."""
        flags = event["flags"]
        if flags != there["flags"]:
            return 7
        is_ending = flags & (POST | VOID)
        for number, field in ((8, "pending_id"), (9, "timeout")):
            if event[field] != there[field]:
                return number
        for number, field in ((10, "debit_account_id"), (11, "credit_account_id")):
            if event[field] != there[field] and not (is_ending and event[field] == 0):
                return number
        if self.amount_differs(event, there):
            return 12
        compared = ("user_data_128", "user_data_64", "user_data_32", "ledger", "code")
        for number, field in enumerate(compared, 13):
            if event[field] != there[field] and not (is_ending and event[field] == 0):
                return number
        return 18

    def amount_differs(self, event, there):
        flags, amount = event["flags"], event["amount"]
        if flags & (BALANCING_DEBIT | BALANCING_CREDIT):
            return amount < there["amount"]
        if flags & POST and amount == MAX:
            amount = self.transfers[there["pending_id"]]["amount"]
        if flags & VOID and amount == 0:
            return False
        return amount != there["amount"]

    def ending_refusal(self, event):
        """The same of a post or void."""
        named = event["pending_id"]
        if named in (0, MAX):
            return (20 if named == 0 else 21), 0
        if named == event["id"]:
            return 22, 0
        if event["timeout"]:
            return 23, 0
        pending = self.transfers.get(named)
        if not pending:
            return 24, 0
        if not pending["flags"] & PENDING:
            return 25, 0
        compared = ("debit_account_id", "credit_account_id", "ledger", "code")
        for number, field in enumerate(compared, 26):
            if event[field] and event[field] != pending[field]:
                return number, 0
        amount = event["amount"]
        if event["flags"] & POST and amount == MAX:
            amount = pending["amount"]
        if amount > pending["amount"]:
            return 30, 0
        if event["flags"] & VOID:
            if 0 < amount < pending["amount"]:
                return 31, 0
            amount = pending["amount"]
        ending = self.ending(pending, self.clock)
        return {"open": 0, "posted": 32, "voided": 33, "expired": 34}[ending], amount

    def new_refusal(self, event):
        """The same of any other transfer."""
        debit_id, credit_id = event["debit_account_id"], event["credit_account_id"]
        for number, holds in ((35, debit_id == 0), (36, debit_id == MAX), (37, credit_id == 0),
                              (38, credit_id == MAX), (39, debit_id == credit_id),
                              (40, event["pending_id"]),
                              (23, event["timeout"] and not event["flags"] & PENDING),
                              (42, event["ledger"] == 0), (43, event["code"] == 0)):
            if holds:
                return number, 0
        debit, credit = self.accounts.get(debit_id), self.accounts.get(credit_id)
        if not debit or not credit:
            return (45 if debit else 44), 0
        if debit["ledger"] != credit["ledger"]:
            return 46, 0
        if event["ledger"] != debit["ledger"]:
            return 47, 0
        left, right = self.balances(debit_id), self.balances(credit_id)
        amount = balanced(event, left, right)
        return limit_refusal(event, amount, debit, credit, left, right), amount

    # Reads.

    def statement(self, account):
        """The lines of a statement, oldest first."""
        return [self.line(account, each) for each in self.entries(account)]

    def entries(self, account):
        """The transfers of an account, oldest first."""
        return [each for each in sorted(self.transfers.values(), key=lambda one: one["timestamp"])
                if account in (each["debit_account_id"], each["credit_account_id"])]

    def line(self, account, entry):
        """One of its transfers as a line of its statement."""
        side = "debit" if entry["debit_account_id"] == account else "credit"
        sums = self.balances(account, entry["at"], entry["timestamp"])
        told = (entry["timestamp"], entry["id"], side, kind_of(entry), entry["amount"])
        return ",".join(map(str, told + tuple(sums[name] for name in BALANCES)))

    def query_accounts(self, asked):
        """The accounts of a page, and its `next`. What is not asked for is 0 or missing."""
        return page(self.accounts.values(), asked, lambda each: has_tags(asked, each))

    def query_transfers(self, asked):
        """The same of transfers."""
        return page(self.transfers.values(), asked, lambda each: has_tags(asked, each))

    def open_holds(self, asked):
        """The same of pending transfers that are open."""
        return page(self.transfers.values(), asked, lambda each: self.fate(each) == "open")

    def holds(self, ids):
        """The pending transfers with these ids."""
        found = (self.transfers[number] for number in ids if number in self.transfers)
        return [each for each in found if self.fate(each)]

    def fate(self, transfer):
        """What has become of it, if it is a pending one."""
        return self.ending(transfer, self.clock) if transfer["flags"] & PENDING else None


def has_tags(asked, record):
    """Whether a record has each value that is asked for."""
    return all(asked.get(tag, 0) in (0, record[tag]) for tag in TAGS)


def page(records, asked, shows):
    """Those of some records that a page shows, and the time to ask for the next one with."""
    first, last = asked.get("timestamp_min", 0), asked.get("timestamp_max", 0) or 2**64 - 1
    is_turned = bool(asked.get("flags", 0) & NEWEST_FIRST)
    within = [each for each in records if first <= each["timestamp"] <= last]
    within.sort(key=lambda each: each["timestamp"], reverse=is_turned)
    looked_at = within[:MOST_LOOKED_AT]
    chosen = [each for each in looked_at if shows(each)][:asked["limit"]]
    if len(chosen) == asked["limit"]:
        end = chosen[-1]
    elif len(looked_at) == MOST_LOOKED_AT:
        end = looked_at[-1]
    else:
        return chosen, 0
    return chosen, end["timestamp"] + (-1 if is_turned else 1)


def due_of(transfer):
    """When a pending transfer expires; 0 is never."""
    seconds = transfer["timeout"]
    return transfer["timestamp"] + seconds * 10**9 if seconds else 0


def kind_of(transfer):
    for bit, kind in ((PENDING, "pending"), (POST, "post"), (VOID, "void")):
        if transfer["flags"] & bit:
            return kind
    return "single"


def balanced(event, debit, credit):
    """The amount, lowered to what a balancing transfer may move."""
    amount = event["amount"]
    if event["flags"] & BALANCING_DEBIT:
        used = debit["debits_pending"] + debit["debits_posted"]
        amount = min(amount, max(0, debit["credits_posted"] - used))
    if event["flags"] & BALANCING_CREDIT:
        used = credit["credits_pending"] + credit["credits_posted"]
        amount = min(amount, max(0, credit["debits_posted"] - used))
    return amount


def limit_refusal(event, amount, debit, credit, left, right):
    """Whether a sum would be too large, or a limit be passed."""
    is_pending = event["flags"] & PENDING
    debits = left["debits_pending"] + left["debits_posted"] + amount
    credits = right["credits_pending"] + right["credits_posted"] + amount
    tested = (
        (48, is_pending and left["debits_pending"] + amount > MAX),
        (49, is_pending and right["credits_pending"] + amount > MAX),
        (50, left["debits_posted"] + amount > MAX),
        (51, right["credits_posted"] + amount > MAX),
        (52, debits > MAX),
        (53, credits > MAX),
        (55, debit["flags"] & DEBITS_LIMITED and debits > left["credits_posted"]),
        (56, credit["flags"] & CREDITS_LIMITED and credits > right["debits_posted"]),
    )
    return next((number for number, holds in tested if holds), 0)
