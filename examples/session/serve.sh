#!/bin/sh
# Serves a new ledger with two tenants until ctrl-C, and prints their keys and a request to begin with.
#
#     examples/session/serve.sh LEDGERD FOLDER [PORT]
#
# LEDGERD is the program; FOLDER/ledger.db is made anew, and stays. With no PORT it takes a free one.
set -eu

here=$(cd "$(dirname "$0")" && pwd)
ledgerd=$(realpath "$(command -v "$1")")
folder=$2
port=$(python3 "$here/port.py" ${3:+"$3"})
mkdir -p "$folder"
cd "$folder"
rm -f ledger.db ledger.db-wal ledger.db-shm ledger.db-sums ledger.db.control

# Adds a tenant, and prints its key.
key_of() {
    "$ledgerd" tenant-add --db ledger.db --name "$1" | sed -n 's/^key //p'
}
north_key=$(key_of north-desk)
south_key=$(key_of south-hall)

cat <<TEXT

A new ledger, $folder/ledger.db, with two tenants:

    north-desk $north_key
    south-hall $south_key

Two accounts, a transfer between them, and what they have then:

    key='x-ledger-key: $north_key'
    at=http://127.0.0.1:$port
    curl -H "\$key" -d '[{"id":"1","ledger":978,"code":1},{"id":"2","ledger":978,"code":1}]' \$at/accounts
    curl -H "\$key" -d '[{"id":"100","debit_account_id":"1","credit_account_id":"2","amount":"5000","ledger":978,"code":1}]' \$at/transfers
    curl -H "\$key" -d '["1","2"]' \$at/accounts/lookup

It is served until you press ctrl-C. The file stays.

TEXT
exec "$ledgerd" serve --db ledger.db --port "$port"
