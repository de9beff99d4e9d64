#!/bin/sh
# Builds libmurshogi.a, the program `listing` and the programs here, makes every sheet anew from its description, lists
# it from C, from Rust and by `listing`, and compares all three with the listing beside it; lists it from C and from Rust
# under the service panel's limits; saves it from C and from Rust, and lists and saves again what was saved; then the same
# of a sheet of 65,536 bytes, and of one byte more. From anywhere: examples/run.sh
set -eu
cd "$(dirname "$0")/.."
(cd crates/murshogi && rt lib > /dev/null)
(cd crates/listing && rt run < stdin > /dev/null)
lib=crates/murshogi/out
bin=target/examples
mkdir -p $bin
rustc --edition 2024 -O examples/sheet.rs -o $bin/sheet
for program in list save; do
    cc -O2 -std=c99 -Wall -Wextra -Iinclude examples/$program.c $lib/libmurshogi.a -o $bin/$program-c
    rustc --edition 2024 -O examples/$program.rs -L $lib -l static=murshogi -o $bin/$program-rs
done

# compare SHEET LISTING: what each of the three prints of a sheet is the listing.
compare() {
    $bin/list-c "$1" > $bin/c || true
    $bin/list-rs "$1" > $bin/rs || true
    crates/listing/out/listing < "$1" > $bin/program
    for output in c rs program; do cmp $bin/$output "$2"; done
}

# panel SHEET LISTING: what C and Rust print of a sheet under the service panel's limits is the listing.
panel() {
    for program in list-c list-rs; do
        $bin/$program "$1" panel > $bin/listed || true
        cmp $bin/listed "$2"
    done
}

# saves SHEET SAVED LISTING: from C and from Rust the sheet is saved as SAVED and then listed as before; saved again, it
# stays as it is. Of a sheet that is refused nothing is written.
saves() {
    for program in save-c save-rs; do
        rm -f $bin/saved $bin/again
        $bin/$program "$1" $bin/saved > $bin/listed || true
        cmp $bin/listed "$3"
        if grep -q '^refused' "$3"; then
            test ! -e $bin/saved
            continue
        fi
        cmp $bin/saved "$2"
        $bin/$program $bin/saved $bin/again > $bin/listed
        cmp $bin/listed "$3"
        cmp $bin/again $bin/saved
    done
}

for description in examples/*.txt; do
    name=$(basename "$description" .txt)
    $bin/sheet < "$description" | cmp - "examples/$name.sheet"
    echo "== $name"
    compare "examples/$name.sheet" "examples/$name.listing"
    cat $bin/c
    # what the panel opens it draws as the main screen does; what it refuses has a file of its own
    listing=examples/$name.panel
    [ -e "$listing" ] || listing=examples/$name.listing
    panel "examples/$name.sheet" "$listing"
    # a sheet in the editor's order stays as it is; another is saved as the same description in that order
    saved=examples/$name.saved
    [ -e "$saved" ] || saved=examples/$name.sheet
    grep -v -e '^cut ' -e '^step ' "$description" | $bin/sheet | cmp - "$saved"
    saves "examples/$name.sheet" "$saved" "examples/$name.listing"
done

# 64 states, 256 arrows and lines, 4,095 records: an accepted sheet of 65,536 bytes, which is listed (list-c ends with 0).
awk 'BEGIN {
    for (i = 0; i < 64; i++) print (i == 0 ? "state start" : "state")
    left = 4095 - 64 - 256
    for (i = 0; i < 256; i++) {
        print "arrow", i % 64, (7 * i + 1) % 64
        for (k = 0; k < 8 && left > 0; k++) {
            print (left > 1 ? "line a" : "line ")
            left -= left > 1 ? 2 : 1
        }
    }
}' | $bin/sheet > $bin/full.sheet
test "$(wc -c < $bin/full.sheet)" -eq 65536
$bin/list-c $bin/full.sheet > $bin/full.listing
echo "== 65,536 bytes"
compare $bin/full.sheet $bin/full.listing
echo "refused 5" > $bin/full.panel
panel $bin/full.sheet $bin/full.panel
saves $bin/full.sheet $bin/full.sheet $bin/full.listing
echo "== 65,537 bytes"
printf '\000' | cat $bin/full.sheet - > $bin/longer.sheet
echo "refused 1" > $bin/longer.listing
compare $bin/longer.sheet $bin/longer.listing
panel $bin/longer.sheet $bin/longer.listing
saves $bin/longer.sheet $bin/longer.sheet $bin/longer.listing
cat $bin/c
echo "all as listed and saved"
