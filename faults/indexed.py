"""The plain ledger with an index beside its lists, for a run that is too long to search all of them
for each event. Every rule is the plain ledger's; it is only shown fewer transfers."""

from model import POST, VOID, Ledger


class Indexed(Ledger):
    """A plain ledger that has for each account another one, with that account's transfers alone,
    and for each pending transfer the one that ended it. A post or void has the accounts of what it
    ends, so an account's balances need no other transfers."""

    def __init__(self):
        super().__init__()
        self.parts, self.ended, self.noted = {}, {}, []

    def ending(self, transfer, at):
        one = Ledger()
        one.transfers = self.ended.get(transfer["id"], {})
        return one.ending(transfer, at)

    def balances(self, account, at=None, upto=None):
        part = self.parts.setdefault(account, Ledger())
        return part.balances(account, self.clock if at is None else at, upto)

    def chain(self, events, first, count, transfers):
        """As the plain ledger's. What falls with its chain is taken out of the index too."""
        self.noted = []
        results = super().chain(events, first, count, transfers)
        if any(results):
            for stored in self.noted:
                self.forget(stored)
        return results

    def transfer(self, event, stamp):
        number = super().transfer(event, stamp)
        if number == 0:
            self.note(self.transfers[event["id"]])
        return number

    def note(self, stored):
        self.noted.append(stored)
        for account in accounts_of(stored):
            self.parts.setdefault(account, Ledger()).transfers[stored["id"]] = stored
        if stored["flags"] & (POST | VOID):
            self.ended[stored["pending_id"]] = {stored["id"]: stored}

    def forget(self, stored):
        for account in accounts_of(stored):
            del self.parts[account].transfers[stored["id"]]
        if stored["flags"] & (POST | VOID):
            del self.ended[stored["pending_id"]]

    def differs(self, random):
        """Where it tells something else than the plain ledger over all lists: of each account, and
        of some pending transfers. A text, or None."""
        for account in self.accounts:
            if self.balances(account) != Ledger.balances(self, account):
                return f"the balances of {account}"
        pending = [each for each in self.transfers.values() if self.fate(each)]
        for each in random.sample(pending, min(20, len(pending))):
            if self.ending(each, self.clock) != Ledger.ending(self, each, self.clock):
                return f"the ending of {each['id']}"
        return None


def accounts_of(stored):
    return stored["debit_account_id"], stored["credit_account_id"]
