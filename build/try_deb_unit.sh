#!/bin/sh
# Tries out/packages/ledgerd_*.deb under a systemd of its own (deb_trials.sh), in a container without a
# network but its own loopback. As root, with Debian's systemd-container and debootstrap, and 800 MB in
# FOLDER. Nothing of this machine's own systemd is touched.
#
#     build/try_deb_unit.sh FOLDER
#
# FOLDER/base-unit is the root as debootstrap made it, and is used again.
set -eu
here=$(cd "$(dirname "$0")" && pwd)
base=$1/base-unit root=$1/root-unit
deb=$(ls "$here"/../out/packages/ledgerd_*.deb)

[ -e "$base/etc/debian_version" ] ||
    debootstrap --variant=minbase --include=systemd-sysv,dbus,curl bookworm "$base" > /dev/null
rm -rf "$root"
cp -a "$base" "$root"
cp "$deb" "$root/ledgerd.deb"
cp "$here/deb_trials.sh" "$root/"
dpkg-deb -R "$root/ledgerd.deb" "$root/later"
sed -i 's/^Version: .*/&.1/' "$root/later/DEBIAN/control"
dpkg-deb --root-owner-group --build "$root/later" "$root/later.deb" > /dev/null
rm -r "$root/later"

cat > "$root/etc/systemd/system/trial.service" <<'END'
[Unit]
After=multi-user.target
[Service]
Type=oneshot
ExecStart=/bin/sh -c 'exec sh /deb_trials.sh > /trials.log 2>&1'
ExecStopPost=/usr/bin/systemctl --no-block poweroff
[Install]
WantedBy=multi-user.target
END
systemctl --root="$root" --quiet enable trial
# The last two lines are what a systemd needs that filters addresses itself.
systemd-nspawn --quiet --directory="$root" --private-network --register=no --keep-unit \
    --console=pipe --boot \
    --capability=CAP_BPF,CAP_NET_ADMIN,CAP_PERFMON \
    --system-call-filter=bpf < /dev/null > /dev/null 2>&1
cat "$root/trials.log"
[ "$(tail -n 1 "$root/trials.log")" = "all of it holds" ]
