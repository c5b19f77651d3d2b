#!/usr/bin/env bash
# Has gn_make write one packet of each kind, has Wireshark's tshark take them
# apart, and compares what tshark reads with what was asked for.
#
#   reference/tshark.sh
#
# It is run by hand and needs Debian's package tshark. The program is the one
# that `rt run` has put into crates/gn_make/out/gn_make; GN_MAKE names another, with
# its arguments (as GN_MAKE="reference/target/gn_reference make").
#
# tshark shows numbers as they stand in the packet, but the kind and the
# sequence number in hexadecimal, which is turned into decimal here. A lifetime
# is shown as its octet and as a multiplier and the number of a unit. Not
# compared are the octets of the payload, which tshark hands on to the upper
# protocol, and the media-dependent data of a single-hop packet, which tshark
# reads as channel load and output power, and not as one number.
set -euo pipefail

here=$(cd "$(dirname "${BASH_SOURCE[0]}")" && pwd)
root=$(cd "$here/.." && pwd)
reference=$here/target/gn_reference
read -ra gn_make <<< "${GN_MAKE:-$root/crates/gn_make/out/gn_make}"

command -v tshark > /dev/null || {
    echo "there is no tshark here: apt-get install -y tshark" >&2
    exit 2
}
command -v "${gn_make[0]}" > /dev/null || {
    echo "no program ${gn_make[0]}: run 'rt run' in crates/gn_make first" >&2
    exit 2
}

asked=(
    "beacon lifetime=80 rhl=1 mhl=1 upper=0 class=3 mobile=1
     address=3c00446d57113cad timestamp=1381765597 latitude=416549000 longitude=-47286000
     accurate=1 speed=-23 heading=230"
    "unicast lifetime=241 rhl=9 mhl=10 upper=1 class=128 mobile=0 number=4660
     address=140049a1b2c3d4e5 timestamp=4294967295 latitude=-337654321 longitude=1512345678
     accurate=0 speed=1389 heading=3599
     to-address=9c01020304050607 to-timestamp=305419896 to-latitude=899999999
     to-longitude=-1799999999 payload=0102030405"
    "anycast lifetime=26 rhl=5 mhl=7 upper=2 class=65 mobile=1 number=65534
     address=0800a0b0c0d0e0f1 timestamp=1 latitude=-1 longitude=-1800000000
     accurate=1 speed=16383 heading=1800
     centre-latitude=-899999998 centre-longitude=1799999998 radius=65535 b=257 angle=359
     payload=07d10000c0ffee"
    "broadcast lifetime=252 rhl=255 mhl=255 upper=2 class=129 mobile=0 number=1
     address=fc01ffeeddccbbaa timestamp=2147483648 latitude=900000000 longitude=1
     accurate=0 speed=-16384 heading=65535
     centre-latitude=416550000 centre-longitude=-47286000 radius=100 b=0 angle=0
     payload=07d20000"
    "single-hop lifetime=7 rhl=1 mhl=5 upper=1 class=2 mobile=1
     address=2c00abcdef012345 timestamp=86400000 latitude=523456789 longitude=134567890
     accurate=1 speed=-1 heading=900 media=beef payload=07d100000102"
    "multi-hop lifetime=5 rhl=3 mhl=4 upper=0 class=64 mobile=0 number=32768
     address=3000112233445566 timestamp=3000000000 latitude=-900000000 longitude=1800000000
     accurate=0 speed=16 heading=2700"
)

# What is compared, as a name and the field of tshark. The names are those of
# gn_make and the five that expected() works out.
fields=(
    kind:geonw.ch.htype
    lifetime:geonw.bh.lt
    multiplier:geonw.bh.lt.mult
    unit:geonw.bh.lt.base
    rhl:geonw.bh.rhl
    mhl:geonw.ch.mhl
    upper:geonw.ch.nh
    class:geonw.ch.tclass
    forward:geonw.ch.tc.buffer
    mobile:geonw.ch.flags.mob
    octets:geonw.ch.plength
    number:geonw.seq_num
    address:geonw.src_pos.addr
    timestamp:geonw.src_pos.tst
    latitude:geonw.src_pos.lat
    longitude:geonw.src_pos.long
    accurate:geonw.src_pos.pai
    speed:geonw.src_pos.speed
    heading:geonw.src_pos.hdg
    to-address:geonw.dst_pos.addr
    to-timestamp:geonw.dst_pos.tst
    to-latitude:geonw.dst_pos.lat
    to-longitude:geonw.dst_pos.long
    centre-latitude:geonw.gxc.latitude
    centre-longitude:geonw.gxc.longitude
    radius:geonw.gxc.radius
    b:geonw.gxc.distanceb
    angle:geonw.gxc.angle
)

# The words of an asked line, on one line.
joined() {
    local words
    read -rd '' -a words <<< "$1" || true
    echo "${words[*]}"
}

# The value of a field that was asked for, or nothing.
value_of() {
    local line=$1 name=$2 word
    for word in $line; do
        if [[ $word == "$name="* ]]; then echo "${word#*=}"; fi
    done
}

# What tshark should read for a name, or nothing if the packet has no such field.
expected() {
    local line=$1 name=$2 payload
    case $name in
        kind) kind_octet "${line%% *}" ;;
        multiplier) echo $(($(value_of "$line" lifetime) / 4)) ;;
        unit) echo $(($(value_of "$line" lifetime) % 4)) ;;
        forward) echo $(($(value_of "$line" class) / 128)) ;;
        octets) payload=$(value_of "$line" payload); echo $((${#payload} / 2)) ;;
        *) value_of "$line" "$name" ;;
    esac
}

kind_octet() {
    case $1 in
        beacon) echo 16 ;;
        unicast) echo 32 ;;
        anycast) echo 48 ;;
        broadcast) echo 64 ;;
        single-hop) echo 80 ;;
        multi-hop) echo 81 ;;
    esac
}

# A value of tshark, with hexadecimal numbers turned into decimal ones.
decimal() {
    if [[ $1 == 0x* ]]; then echo $(($1)); else echo "$1"; fi
}

print_row() {
    printf '%-11s %-17s %-17s %-17s %s\n' "$@"
}

"$here/build.sh"
scratch=$(mktemp -d)
trap 'rm -rf "$scratch"' EXIT

for line in "${asked[@]}"; do joined "$line"; done > "$scratch/asked"
"${gn_make[@]}" < "$scratch/asked" > "$scratch/packets"
"$reference" pcap < "$scratch/packets" > "$scratch/packets.pcap"

options=()
for field in "${fields[@]}"; do options+=(-e "${field#*:}"); done
tshark -n -r "$scratch/packets.pcap" -T fields -E separator='|' -E occurrence=f \
    "${options[@]}" > "$scratch/decoded" 2> "$scratch/errors" || {
    cat "$scratch/errors" >&2
    exit 2
}

compared=0
differing=0
print_row packet field asked decoded ''
while IFS= read -r line <&3 && IFS= read -r decoded <&4; do
    IFS='|' read -ra values <<< "$decoded"
    for index in "${!fields[@]}"; do
        name=${fields[index]%%:*}
        want=$(expected "$line" "$name")
        got=$(decimal "${values[index]:-}")
        if [[ -z $want && -z $got ]]; then continue; fi
        compared=$((compared + 1))
        note=
        if [[ $want != "$got" ]]; then
            note=differs
            differing=$((differing + 1))
        fi
        print_row "${line%% *}" "$name" "${want:--}" "${got:--}" "$note"
    done
done 3< "$scratch/asked" 4< "$scratch/decoded"

packets=$(wc -l < "$scratch/decoded")
if [[ $packets != "${#asked[@]}" ]]; then
    echo "tshark read $packets packets of ${#asked[@]}"
    exit 1
fi
if [[ $differing != 0 ]]; then
    echo "$differing of $compared fields differ"
    exit 1
fi
echo "all fields agree ($compared fields of $packets packets)"
