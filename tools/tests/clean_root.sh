#!/usr/bin/env bash
# Tries a package where nothing but Debian is: clean_root.sh PACKAGE.deb [SUITE]. As root, by hand: it fetches a base system by
# debootstrap, installs the package there by apt, runs it as a user who has nothing else, and removes it. Status: 0 if all went well.
set -eu
package=$(readlink -f "$1")
suite=${2:-bookworm}
room=$(mktemp -d)
trap 'rm -rf "$room"' EXIT
debootstrap --variant=minbase "$suite" "$room/root" http://deb.debian.org/debian >"$room/log" 2>&1 || { tail -n 20 "$room/log"; exit 1; }
cp /etc/resolv.conf "$room/root/etc/"
cp "$package" "$room/root/tmp/logix.deb"
inside() { chroot "$room/root" env DEBIAN_FRONTEND=noninteractive "$@"; }
inside apt-get install -y /tmp/logix.deb >"$room/log" 2>&1 || { tail -n 20 "$room/log"; exit 1; }
inside useradd -m tech
cat >"$room/root/home/tech/day" <<'END'
set -eu
cd
examples=/usr/share/doc/logix/examples
logix replay $examples/blink/project.json $examples/blink/edit.txt | cmp - $examples/blink/edited.txt
logix replay $examples/conveyor/project.json $examples/conveyor/journal.txt | logix_timeline | cmp - $examples/conveyor/report.svg
python3 $examples/plant/plant.py | cmp - $examples/plant/table.txt
logix_from_l5x $examples/l5x/line.L5X >line.json
logix check line.json
sed 's/OTE(Lamp)/OTE(Lump)/' $examples/blink/project.json >lump.json
! logix check lump.json
logix_explain --project lump.json project P10 programs.0.routines.0 C4 0 1 | grep "is Lamp meant?"
logix_xref $examples/conveyor/project.json Motor
logix_cover $examples/conveyor/project.json $examples/conveyor/journal.txt
logix --version
END
inside su tech -c 'bash ~/day'
inside apt-get purge -y logix >"$room/log" 2>&1 || { tail -n 20 "$room/log"; exit 1; }
left=$(find "$room/root" -xdev -name '*logix*' -not -path '*/home/*' -not -path '*/tmp/*' -not -path '*/var/*')
[ -z "$left" ] || { printf 'left behind: %s\n' "$left"; exit 1; }
echo 'the package works on a clean system'
