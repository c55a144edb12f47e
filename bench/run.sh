#!/bin/sh
# Compares smbspeed with plain.rs on the same inputs, and prints what came out as tables.
#   bench/run.sh [MIB [ROUNDS]]
set -eu
mib=${1:-64}
rounds=${2:-5}
here=$(cd "$(dirname "$0")" && pwd)
ours=$here/../crates/smbspeed/out/smbspeed
[ -x "$ours" ] || { echo "no $ours: give 'rt run' in crates/smbspeed" >&2; exit 1; }

folder=$(mktemp -d)
trap 'rm -rf "$folder"' EXIT
rustc -O -C target-cpu=x86-64-v2 -o "$folder/plain" "$here/plain.rs"
python3 "$here/inputs.py" "$folder" "$mib"

# Lists one file with both programs: sets the nanoseconds of each. Stops if the listings differ.
compare() {
    "$folder/plain" "$1" "$2" "$rounds" > "$folder/theirs"
    "$ours" "$1" "$2" "$rounds" > "$folder/ours"
    if [ "$(head -n 1 "$folder/theirs")" != "$(head -n 1 "$folder/ours")" ]; then
        echo "listings differ: $3, $2" >&2
        head -n 1 "$folder/theirs" "$folder/ours" >&2
        exit 1
    fi
    size=$(stat -c %s "$1")
    theirs_ns=$(sed -n 's/^nanoseconds //p' "$folder/theirs")
    ours_ns=$(sed -n 's/^nanoseconds //p' "$folder/ours")
}

# The speed of so many bytes in so many nanoseconds, in GB/s.
speed() {
    awk -v bytes="$1" -v ns="$2" 'BEGIN { printf "%.2f", bytes / ns }'
}

# Viewcanvas's speed as a part of plain's.
ratio() {
    awk -v theirs="$theirs_ns" -v ours="$ours_ns" 'BEGIN { printf "%.2f", theirs / ours }'
}

tab=$(printf '\t')
echo "| input | size | plain GB/s | Viewcanvas GB/s | ratio |"
echo "|---|---|---|---|---|"
while IFS=$tab read -r path kind name; do
    compare "$path" "$kind" "$name"
    echo "| $name, $kind | $((size / 1048576)) MiB | $(speed "$size" "$theirs_ns") | $(speed "$size" "$ours_ns") | $(ratio) |"
done < "$folder/inputs"
echo
echo "| recording, tuples | plain GB/s | Viewcanvas GB/s | ratio |"
echo "|---|---|---|---|"
while IFS=$tab read -r path kind name; do
    compare "$path" "$kind" "$name"
    echo "| $name MiB | $(speed "$size" "$theirs_ns") | $(speed "$size" "$ours_ns") | $(ratio) |"
done < "$folder/growth"
