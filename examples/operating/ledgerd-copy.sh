#!/bin/sh
# Copies a ledger, audits the copy, and keeps the newest copies. OPERATING.md, 'A copy each night', says how
# the unit ledgerd-copy.service runs it.
#
#     ledgerd-copy FILE PLACE KEEP
#
# Each copy is a folder of PLACE, named by its moment in UTC: 20261201T023000Z has ledger.db, ledger.db-wal
# and ledger.tenants. A copy that is damaged, or older than the one before it, stays as 20261201T023000Z.bad.
# Then, and whenever a step fails, no earlier copy is removed, and the status is not 0.
set -eu
export LC_ALL=C
umask 077
file=$1 place=$2 keep=$3
moment=$(date -u +%Y%m%dT%H%M%SZ)
part=$place/$moment.part

fail() {
    echo "ledgerd-copy: $1" >&2
    exit 1
}

# The copies that are good, oldest first.
good() {
    for copy in "$place"/????????T??????Z; do
        [ -d "$copy" ] && echo "$copy"
    done
    return 0
}

set_aside() {
    mv -T "$part" "$place/$moment.bad"
    fail "$place/$moment.bad $1; earlier copies are kept"
}

# A tenant of the first list that is not in the second, or has an earlier clock there. Nanoseconds have too
# many digits for awk's numbers, so they are compared as texts.
lost() {
    awk -F, 'FNR == 1 { next }
        NR == FNR { clock[$1] = $3; next }
        { later[$1] = length($3) > length(clock[$1]) ||
              length($3) == length(clock[$1]) && $3 "" >= clock[$1] "" }
        END { for (name in clock) if (!later[name]) { print name; exit } }' "$1" "$2"
}

[ "$keep" -ge 1 ] || fail "KEEP is at least 1"
# What a run that was killed has left.
rm -rf "$place"/????????T??????Z.part
mkdir "$part"
trap 'rm -rf "$part"' EXIT

ledgerd copy --db "$file" --to "$part/ledger.db" > /dev/null || fail "no copy of $file"
said=$(ledgerd check --db "$part/ledger.db" 2>&1) || set_aside "is not good: $said"
ledgerd tenants --db "$part/ledger.db" > "$part/ledger.tenants" || fail "no tenants of $part"

last=$(good | tail -n 1)
if [ -n "$last" ]; then
    # A clock never goes back, and no tenant goes.
    tenant=$(lost "$last/ledger.tenants" "$part/ledger.tenants")
    [ -z "$tenant" ] || set_aside "is older than $last, by the clock of $tenant"
fi

sync "$part"/* "$part"
mv -T "$part" "$place/$moment"
sync "$place"
good | head -n "-$keep" | while read -r copy; do
    rm -rf "$copy"
done
echo "copied $place/$moment: $(cat "$place/$moment"/ledger.db* | wc -c) bytes, checked; $(good | wc -l) kept"
