"""Compares stored operations with the ledger, entry by entry and sum by sum.

    LEDGER_URL=.. LEDGER_KEY=.. PYTHONPATH=clients/python python3 examples/wallet/reconcile.py FILE

FILE is that of `wallets.py`. Nothing else may use the tenant, and nobody may book meanwhile."""

import collections
import os
import sys

from cegarront import EntryKind, Ledger, Side

from wallets import COUNT, COUNTERS, CURRENCIES, FEES, FIRST_WALLET, OK, Wallets, account

MOVES = (EntryKind.SINGLE, EntryKind.POST)


class Mismatch(Exception):
    """The operations and the ledger disagree."""


def must(holds, text):
    if not holds:
        raise Mismatch(text)


def booked(wallets):
    """The transfers of the operations that were accepted, by their ids."""
    found = {}
    for key, _, transfers, outcome in wallets.operations():
        must(outcome is not None, f"{key} has no outcome: repeat it first")
        found.update((each.id, each) for each in transfers if outcome == OK)
    return found


def compare_transfers(ledger, expected):
    """The ledger has what was accepted, once each, and nothing else. The stored transfers."""
    stored = list(ledger.iter_transfers())
    ids = [each.id for each in stored]
    must(len(ids) == len(set(ids)), "a transfer stands twice")
    lost, foreign = set(expected) - set(ids), set(ids) - set(expected)
    must(not lost and not foreign, f"{len(lost)} transfers are lost, {len(foreign)} are foreign")
    for each in stored:
        asked = expected[each.id]
        same = all(getattr(asked, name) in (0, getattr(each, name))
                   for name in ("debit_account_id", "credit_account_id", "amount", "ledger", "code"))
        same = same and (each.flags, each.pending_id) == (asked.flags, asked.pending_id)
        must(same, f"{each}, not {asked}")
    return {each.id: each for each in stored}


def compare_statements(ledger, accounts):
    """Each account's posted sums are those of its entries, and its last line has its sums. How many
    lines these were."""
    lines = 0
    for each in accounts:
        posted, entry = {Side.DEBIT: 0, Side.CREDIT: 0}, None
        for entry in ledger.statement(each.id):
            posted[entry.side] += entry.amount if entry.kind in MOVES else 0
            lines += 1
        must(posted == {Side.DEBIT: each.debits_posted, Side.CREDIT: each.credits_posted},
             f"the entries of {each.id} make {posted}")
        must(entry is None or (entry.debits_posted, entry.credits_posted) ==
             (each.debits_posted, each.credits_posted), f"the last line of {each.id}")
    return lines


def compare_holds(ledger, accounts, stored):
    """Each account's pending sums are those of its open holds."""
    sums = collections.Counter()
    for each in ledger.iter_open_pending():
        hold = stored[each.id]
        sums[hold.debit_account_id, Side.DEBIT] += hold.amount
        sums[hold.credit_account_id, Side.CREDIT] += hold.amount
    for each in accounts:
        expected = (sums[each.id, Side.DEBIT], sums[each.id, Side.CREDIT])
        must((each.debits_pending, each.credits_pending) == expected, f"holds of {each.id}: {expected}")


def compare_wallets(wallets, accounts, stored):
    """Wallets, fees and counters hold what the operations make."""
    balances, orders = collections.Counter(), collections.Counter()
    for _, kind, transfers, _ in (it for it in wallets.operations() if it[3] == OK):
        first = stored[transfers[0].id]
        if kind in ("deposit", "refund"):
            balances[first.credit_account_id] += first.amount
        if kind == "capture":
            balances[first.debit_account_id] -= first.amount
            balances[transfers[1].credit_account_id] += transfers[1].amount
            orders[first.pending_id] += first.amount
        if kind == "refund":
            orders[transfers[1].debit_account_id] -= first.amount
    fees = {account(currency, FEES) for currency in CURRENCIES}
    for each in accounts:
        if each.code == FIRST_WALLET or each.id in fees:
            must(each.balance == balances[each.id] >= 0, f"{each.id} has {each.balance}")
        if each.code == COUNT and each.ledger > COUNTERS:
            must(each.balance == orders[each.id] >= 0, f"the counter {each.id} has {each.balance}")


def compare_ledgers(accounts):
    """In each ledger debits equal credits."""
    for number in {each.ledger for each in accounts}:
        of = [each for each in accounts if each.ledger == number]
        must(sum(each.balance for each in of) == 0, f"ledger {number} is not even")
        must(sum(each.debits_pending - each.credits_pending for each in of) == 0, f"holds of {number}")


def reconcile(ledger, wallets):
    """Raises `Mismatch`, or returns a line that says what was compared."""
    ledger.create_transfers([])  # holds that are due leave the sums
    stored = compare_transfers(ledger, booked(wallets))
    accounts = list(ledger.iter_accounts())
    lines = compare_statements(ledger, accounts)
    compare_holds(ledger, accounts, stored)
    compare_wallets(wallets, accounts, stored)
    compare_ledgers(accounts)
    return (f"{len(stored)} transfers, none lost, doubled or foreign; {len(accounts)} accounts agree with "
            f"{lines} lines of their statements")


def main():
    wallets = Wallets(None, sys.argv[1])
    with Ledger(os.environ["LEDGER_URL"], os.environ["LEDGER_KEY"]) as ledger:
        print(reconcile(ledger, wallets))


if __name__ == "__main__":
    main()
