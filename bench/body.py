"""Prints a body of transfers between accounts 1 and 2: COUNT of them, in chains of LENGTH."""

import json
import sys


def event(place, count, length):
    ends_chain = (place + 1) % length == 0 or place + 1 == count
    return {
        "id": str(100 + place),
        "debit_account_id": "1",
        "credit_account_id": "2",
        "amount": "1",
        "ledger": 7,
        "code": 1,
        "flags": 0 if ends_chain else 1,
    }


def main():
    count, length = int(sys.argv[1]), int(sys.argv[2])
    print(json.dumps([event(place, count, length) for place in range(count)]))


main()
