#!/bin/sh
# Installs out/packages/ledgerd_*.deb in a fresh Debian root, uses it, upgrades it, and removes it. As
# root, with debootstrap, 600 MB in FOLDER, and a free port of this machine's loopback, PORT or 18080:
#
#     build/try_deb.sh FOLDER
#
# FOLDER/base is the root as debootstrap made it, and is used again; FOLDER/root is made anew each time.
set -eu
cd "$(dirname "$0")/.."
folder=$1 port=${PORT:-18080}
root=$folder/root
deb=$(ls out/packages/ledgerd_*.deb)
db=/var/lib/ledgerd/ledger.db

must() { # must WHAT CONDITION..
    what=$1; shift
    if "$@"; then echo "holds: $what"; else echo "FAILS: $what" >&2; exit 1; fi
}
inside() { chroot "$root" env PATH=/usr/sbin:/usr/bin:/sbin:/bin "$@"; }
as_ledgerd() { inside runuser -u ledgerd -- "$@"; }
equal() { [ "$1" = "$2" ]; }

serve() {
    as_ledgerd ledgerd serve --db $db --port "$port" & service=$!
    for _ in $(seq 100); do
        [ "$(curl -s "http://127.0.0.1:$port/health")" != '{"serving":true}' ] || return 0
        sleep 0.2
    done
    echo "FAILS: it does not serve" >&2; exit 1
}
stop() {
    must "it stops" equal "$(as_ledgerd ledgerd stop --db $db)" stopped
    wait "$service"
}
wallet() {
    LEDGER_URL=http://127.0.0.1:$port PYTHONPATH=clients/python \
        python3 clients/python/examples/wallet.py
}
tries_the_wallet() { equal "$(wallet)" "again: existed, balance: 3500"; }

[ -e "$folder/base/etc/debian_version" ] || debootstrap --variant=minbase bookworm "$folder/base"
rm -rf "$root"
cp -a "$folder/base" "$root"
cp "$deb" "$root/ledgerd.deb"

inside dpkg -i /ledgerd.deb
must "the program runs" equal "$(inside ledgerd version | sed -n 2p)" "schema 3"
must "it names its commit" equal "$(inside ledgerd version | tail -n 1)" \
    "$(inside sed -n 's/^commit: /commit /p' /usr/share/doc/ledgerd/MANIFEST)"
must "no library is missing" equal "$(inside ldd /usr/bin/ledgerd | grep -c 'not found')" 0
must "the folder is its user's alone" \
    equal "$(inside stat -c '%U:%G %a' /var/lib/ledgerd)" "ledgerd:ledgerd 700"
must "the unit names the program" grep -q '^ExecStart=/usr/bin/ledgerd serve' \
    "$root/usr/lib/systemd/system/ledgerd.service"

LEDGER_KEY=$(as_ledgerd ledgerd tenant-add --db $db --name shop | sed -n 's/^key //p')
export LEDGER_KEY
serve
must "a client books transfers" tries_the_wallet
stop

# The same program as a later version.
dpkg-deb -R "$root/ledgerd.deb" "$root/later"
sed -i 's/^Version: .*/&.1/' "$root/later/DEBIAN/control"
dpkg-deb --root-owner-group --build "$root/later" "$root/later.deb" > /dev/null
inside dpkg -i /later.deb
must "it is upgraded" equal "$(inside dpkg-query -W -f '${Version}' ledgerd)" "$(cat VERSION).1"
must "the ledger is whole" equal "$(as_ledgerd ledgerd check --db $db)" ok
serve
must "a client books transfers again" tries_the_wallet
stop

cp "$root$db" "$folder/ledger.db"
inside dpkg -r ledgerd
must "the program is gone" [ ! -e "$root/usr/bin/ledgerd" ]
inside dpkg -P ledgerd
must "the pages are gone" [ ! -e "$root/usr/share/doc/ledgerd" ]
must "the ledger stays" cmp "$root$db" "$folder/ledger.db"
rm "$folder/ledger.db"

inside dpkg -i /ledgerd.deb
must "installed again, the ledger is whole" equal "$(as_ledgerd ledgerd check --db $db)" ok
echo "all of it holds"
