"""A wallet: money comes in, some is set aside for an order, and a part of that is paid."""

import os

from cegarront import Account, AccountFlag, Ledger, Transfer, TransferFlag, Unanswered, new_id

EURO, BANK, SHOP = 978, 1, 2
CAPPED = AccountFlag.DEBITS_MUST_NOT_EXCEED_CREDITS  # a wallet that cannot be overdrawn


def main(ledger: Ledger) -> None:
    wallet = Account(id=new_id(), ledger=EURO, code=3, flags=CAPPED)
    accounts = [Account(id=BANK, ledger=EURO, code=1), Account(id=SHOP, ledger=EURO, code=2), wallet]
    ledger.create_accounts(accounts).raise_for_refused()

    # 50.00 come in. Draw an id once, and keep it with the order before you send it.
    top_up = Transfer(id=new_id(), debit_account_id=BANK, credit_account_id=wallet.id, amount=50_00,
                      ledger=EURO, code=1)
    ledger.create_transfers([top_up]).raise_for_refused()

    # 20.00 are set aside for an hour, and 15.00 of them are paid; the rest is free again.
    hold = Transfer(id=new_id(), debit_account_id=wallet.id, credit_account_id=SHOP, amount=20_00,
                    ledger=EURO, code=2, timeout=3600, flags=TransferFlag.PENDING)
    payment = Transfer(id=new_id(), pending_id=hold.id, amount=15_00,
                       flags=TransferFlag.POST_PENDING_TRANSFER)
    ledger.create_transfers([hold]).raise_for_refused()
    ledger.create_transfers([payment]).raise_for_refused()

    # Sent again, it is there, and nothing is added.
    (again,) = ledger.create_transfers([payment])
    (now,) = ledger.lookup_accounts([wallet.id])
    print(f"again: {again.outcome.value}, balance: {now.balance}")


if __name__ == "__main__":
    with Ledger(os.environ["LEDGER_URL"], os.environ["LEDGER_KEY"]) as ledger:
        try:
            main(ledger)
        except Unanswered as error:
            print("send the same again" if error.may_be_booked else "nothing was sent")
            raise
