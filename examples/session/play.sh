#!/bin/sh
# Plays the worked session with curl against a service of its own, on a new file. The operator's
# commands are given while it serves, and the last of them stops it.
# It shows each request (>) and its reply (<), and leaves the file, and a copy of it.
#
#     examples/session/play.sh LEDGERD FOLDER [PORT]
#
# LEDGERD is the program; FOLDER/ledger.db and FOLDER/copy.db are made anew. With no PORT it takes a
# free one.
set -eu

here=$(dirname "$0")
. "$here/requests.sh"
ledgerd=$(realpath "$(command -v "$1")")
folder=$2
port=$(python3 "$here/port.py" ${3:+"$3"})
db=$folder/ledger.db
mkdir -p "$folder"
for file in "$db" "$folder/copy.db"; do
    rm -f "$file" "$file-wal" "$file-shm" "$file-sums" "$file.control"
done
scratch=$(mktemp -d)
server=
trap '[ -z "$server" ] || kill "$server" 2>/dev/null || true; rm -rf "$scratch"' EXIT
trap 'exit 130' INT TERM HUP

# Runs a command of the program in the folder, and shows it with what it prints.
run() {
    echo "> ledgerd $*"
    (cd "$folder" && exec "$ledgerd" "$@") >"$scratch/printed"
    sed 's/^/< /' "$scratch/printed"
}

# The key that the last command has drawn.
drawn() {
    sed -n 's/^key //p' "$scratch/printed"
}

# Serves the file, and waits until a message is answered.
serve() {
    echo '> ledgerd serve --db ledger.db --port PORT'
    (cd "$folder" && exec "$ledgerd" serve --db ledger.db --port "$port") &
    server=$!
    until listens; do
        kill -0 "$server" 2>/dev/null || { echo 'the service has ended' >&2; exit 1; }
        sleep 0.1
    done
    ask anyone '' GET /health
}

title 'A new file with a tenant, served on 127.0.0.1'
run tenant-add --db ledger.db --name north-desk
north_key=$(drawn)
serve

title 'While it serves another tenant is added'
run tenant-add --db ledger.db --name south-hall
south_key=$(drawn)

send_first

title 'A key is changed: the old one is nobody'\''s, and the same batch under the new one is a retry'
old_key=$north_key
run tenant-key --db ledger.db --name north-desk
north_key=$(drawn)
ask old-key "$old_key" POST /transfers "$paid_more"
north POST /transfers "$paid_more"

title 'All tenants, each with the digest of its key and its clock'
run tenants --db ledger.db

send_rest

title 'What the service tells of itself'
run status --db ledger.db

title 'A copy of this moment: what is sent later it does not have'
run copy --db ledger.db --to copy.db
north POST /transfers '[{"id":"109","debit_account_id":"3","credit_account_id":"2","amount":"500","ledger":978,"code":2}]'

title 'The copy is audited, tells what accountants ask, and is read by a stock sqlite3'
run check --db copy.db
run statement --db copy.db --tenant north-desk --account 2 --balances --wide
cat >"$scratch/accepted.sql" <<'SQL'
SELECT name, count(*) AS transfers FROM transfer JOIN tenant ON no = tenant GROUP BY name
SQL
echo "> sqlite3 copy.db \"$(cat "$scratch/accepted.sql")\""
sqlite3 "$folder/copy.db" <"$scratch/accepted.sql" >"$scratch/printed"
sed 's/^/< /' "$scratch/printed"

title 'It has served all the time, and is stopped'
run stop --db ledger.db
wait "$server"
server=
printf '\nThe file stays: sqlite3 %s (docs/STORAGE.md has its tables and more to ask)\n' "$db"
