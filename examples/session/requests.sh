# The requests of the worked session, for the scripts that read this file. They set `port`,
# `north_key`, `south_key` and `scratch`, a folder for what comes and goes.

# How many replies the requests below get.
requests=22

# Says what comes next.
title() {
    printf '\n# %s\n' "$1"
}

# Shows a reply, an element of a list a line.
show() {
    awk '{ gsub(/[}],[{]/, "},\n<     {"); print "< " $0 }' "$1"
}

# Sends a request and shows it with its reply: ask TENANT KEY METHOD PATH [BODY].
ask() {
    echo "> $1 $3 $4"
    url=http://127.0.0.1:$port$4
    if [ $# -eq 5 ]; then
        printf '%s\n' "$5" | sed 's/^/> /'
        printf '%s' "$5" >"$scratch/body"
        set -- "$1" "$2" "$3" "$4" --data-binary "@$scratch/body"
    fi
    key=$2
    method=$3
    shift 4
    curl -sS --max-time 60 -X "$method" -H "x-ledger-key: $key" -w '< %{http_code}\n' \
        -o "$scratch/reply" "$@" "$url"
    show "$scratch/reply"
}

north() {
    ask north-desk "$north_key" "$@"
}

south() {
    ask south-hall "$south_key" "$@"
}

# Whether a connection to the port is accepted.
listens() {
    python3 -c 'import socket, sys
try:
    socket.create_connection(("127.0.0.1", int(sys.argv[1])), 2).close()
except OSError:
    sys.exit(1)' "$port" 2>/dev/null
}

# Up to the retry of what failed, and from then on.
send_first() {
    title 'Accounts: a bank, a merchant, and a wallet that cannot be overdrawn and keeps a history'
    north POST /accounts '[{"id":"1","ledger":978,"code":1},
 {"id":"2","ledger":978,"code":2},
 {"id":"3","ledger":978,"code":3,"flags":10}]'

    title 'The other tenant has an account 1 as well'
    south POST /accounts '[{"id":"1","ledger":840,"code":1}]'

    title 'A transfer: 50.00 are paid into the wallet'
    paid_in='[{"id":"100","debit_account_id":"1","credit_account_id":"3","amount":"5000","ledger":978,"code":1}]'
    north POST /transfers "$paid_in"

    title 'Its retry: it is there, and nothing is added'
    north POST /transfers "$paid_in"

    title 'A hold of 20.00 from the wallet to the merchant'
    north POST /transfers '[{"id":"101","debit_account_id":"3","credit_account_id":"2","amount":"2000","ledger":978,"code":2,"flags":2}]'

    title 'Of which 15.00 are posted; the rest is released'
    north POST /transfers '[{"id":"102","pending_id":"101","amount":"1500","flags":4}]'

    title 'A hold of 10.00 for one second'
    north POST /transfers '[{"id":"103","debit_account_id":"3","credit_account_id":"2","amount":"1000","ledger":978,"code":2,"flags":2,"timeout":1}]'
    north POST /accounts/lookup '["3"]'

    title 'A second and a half later it has expired: a batch of none moves the clock'
    sleep 1.5
    north POST /transfers '[]'
    north POST /accounts/lookup '["3"]'

    title 'And it can no longer be posted'
    north POST /transfers '[{"id":"104","pending_id":"103","amount":"1000","flags":4}]'

    title 'An overdraft is refused: the wallet has 35.00'
    overdraft='[{"id":"105","debit_account_id":"3","credit_account_id":"2","amount":"9000","ledger":978,"code":2}]'
    north POST /transfers "$overdraft"

    title 'More is paid in; but a retry of what failed does not come through later'
    paid_more='[{"id":"106","debit_account_id":"1","credit_account_id":"3","amount":"9000","ledger":978,"code":1}]'
    north POST /transfers "$paid_more"
    north POST /transfers "$overdraft"
}

send_rest() {
    title 'A chain of two stands or falls whole: there is no account 9'
    north POST /transfers '[{"id":"107","debit_account_id":"3","credit_account_id":"2","amount":"100","ledger":978,"code":2,"flags":1},
 {"id":"108","debit_account_id":"3","credit_account_id":"9","amount":"100","ledger":978,"code":2}]'

    title 'A lookup: the merchant and the wallet'
    north POST /accounts/lookup '["2","3"]'

    title 'The statement of the wallet'
    north GET /statement/3

    title 'The same numbers asked with the other tenant'\''s key'
    south POST /accounts/lookup '["1","3"]'
    south GET /statement/3

    title 'What has code 2, whatever the account, two a page: next is what the next page is asked with'
    north POST /query/transfers '{"code":2,"limit":2}'
    next=$(sed 's/.*"next":"\([0-9]*\)".*/\1/' "$scratch/reply")
    north POST /query/transfers '{"code":2,"limit":2,"timestamp_min":"'"$next"'"}'

    title 'What became of the two holds; 100 is none'
    north POST /pending/lookup '["101","103","100"]'
}

send_requests() {
    send_first
    send_rest
}
