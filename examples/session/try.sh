#!/bin/sh
# Plays the requests of the worked session against ledgerd built with checks in place of proofs.
#
#     examples/session/try.sh LEDGERD FOLDER [PORT]
#
# LEDGERD is that program, which serves a copy of examples/ledger/ledger.db. Where there is no such
# program, `rt try` builds one and runs it. What is shown and what is said go to FOLDER. With STAY=1
# the service stays until it is interrupted.
set -eu

here=$(cd "$(dirname "$0")" && pwd)
. "$here/requests.sh"
. "$here/../ledger/keys.sh"
ledgerd=$(realpath -m "$1")
folder=$2
mkdir -p "$folder"
port=$(python3 "$here/port.py" ${3:+"$3"})
stay=${STAY:-}
if [ -n "$stay" ]; then
    requests=
    seconds=86400
else
    seconds=600
fi
scratch=$(mktemp -d)
tried=
end() {
    if [ -n "$tried" ]; then
        kill "$tried" 2>/dev/null || true
        wait "$tried" 2>/dev/null || true
    fi
    rm -rf "$scratch"
}
trap end EXIT
trap 'exit 130' INT TERM HUP

# Says where the reason stands, and ends.
fail() {
    echo "make try: $1; $folder/try.log ends with:" >&2
    tail -n 5 "$folder/try.log" >&2
    exit 1
}

# Serves the copy. What takes its place is in a session of its own, so that ctrl-C ends it once,
# through this script.
serve() {
    set -- serve --db ledger.db --port "$port" ${requests:+--requests "$requests"}
    if [ -x "$ledgerd" ]; then
        cp "$here/../ledger/ledger.db" "$scratch"
        cd "$scratch"
        exec setsid "$ledgerd" "$@"
    fi
    cd "$here/../../crates/ledgerd"
    exec setsid rt try --seconds "$seconds" --data "ledger.db=$here/../ledger/ledger.db" -- "$@"
}

cat <<'TEXT'
ledgerd is built with checks in place of proofs. It is the same text, for a look: it stops where an
index or a sum would go wrong, and nothing of it is proved here. It serves a copy of
examples/ledger/ledger.db, of which nothing is kept.
TEXT

serve </dev/null >"$folder/try.log" 2>&1 &
tried=$!
until listens; do
    kill -0 "$tried" 2>/dev/null || fail 'the program does not serve'
    sleep 0.2
done
printf '\nServed on 127.0.0.1:%s\n' "$port"

# `tail` may come first, so that the file is made here.
: >"$folder/session.txt"
send_requests >"$folder/session.txt" 2>&1 &
sender=$!
tail -n +1 -f --pid="$sender" "$folder/session.txt"
wait "$sender" || fail 'a request was not answered'
echo
python3 "$here/compare.py" --requests "$folder/session.txt"

if [ -n "$stay" ]; then
    cat <<TEXT

It stays on 127.0.0.1:$port until you press ctrl-C, for a day at most; nothing is left of it then.
north-desk's key is $north_key
south-hall's key is $south_key

    curl -H "x-ledger-key: $north_key" -d '["1","3"]' http://127.0.0.1:$port/accounts/lookup

TEXT
fi
# With the last of its replies the program ends.
wait "$tried" || fail 'the service ended with a fault'
tried=
cat <<'TEXT'
Next: `make play` serves a new ledger, to be asked by your own curl. `make run` proves the program,
builds it without the checks and plays the whole session on a file that stays (README.md).
TEXT
