#!/bin/sh
# What build/try_deb_unit.sh runs in its container: the package under systemd, from its installation to
# its removal. /ledgerd.deb is the package, and /later.deb the same as a later version.
set -u
db=/var/lib/ledgerd/ledger.db
url=http://127.0.0.1:8080

must() { # must WHAT CONDITION..
    what=$1; shift
    if "$@" > /dev/null 2>&1; then echo "holds: $what"; else echo "FAILS: $what"; exit 1; fi
}
not() { ! "$@"; }
equal() { [ "$1" = "$2" ]; }
ask() { curl -s -H "x-ledger-key: $key" -d "$2" "$url$1"; }
answers() { ask "$1" "$2" | grep -q "$3"; }
serves() {
    for _ in $(seq 100); do
        [ "$(curl -s $url/health)" != '{"serving":true}' ] || return 0
        sleep 0.2
    done
    return 1
}
process() { systemctl show -p MainPID --value ledgerd; }

must "it is installed" dpkg -i /ledgerd.deb
must "nothing is started by that" not systemctl is-active ledgerd
key=$(runuser -u ledgerd -- ledgerd tenant-add --db $db --name shop 2> /dev/null | sed -n 's/^key //p')
must "it is enabled" systemctl enable --now ledgerd
must "it serves" serves
must "accounts are opened" answers /accounts \
    '[{"id":"1","ledger":978,"code":1},{"id":"2","ledger":978,"code":1}]' '"number":0'
must "a transfer is booked" answers /transfers \
    '[{"id":"100","debit_account_id":"1","credit_account_id":"2","amount":"5000","ledger":978,"code":1}]' \
    '"number":0'

first=$(process)
must "it is upgraded" dpkg -i /later.deb
must "it serves again" serves
must "by another process" not equal "$first" "$(process)"
must "the transfer is there" answers /transfers/lookup '["100"]' '"amount":"5000"'

must "it is removed" dpkg -r ledgerd
must "nothing serves" not curl -s $url/health
must "the ledger stays" [ -s $db ]
must "it is purged" dpkg -P ledgerd
must "it is installed again" dpkg -i /ledgerd.deb
must "the ledger is whole" equal "$(runuser -u ledgerd -- ledgerd check --db $db)" ok
echo "all of it holds"
