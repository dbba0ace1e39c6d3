#!/bin/bash
# fiptool.sh FIP PACKING_RUN: our programs against Debian's fiptool and real firmware images.
# Run as root on Debian, with the network. Prints the outcome of each step, and the counts last.
set -euo pipefail
export LC_ALL=C

if [ $# -ne 2 ]; then
    echo "usage: fiptool.sh FIP PACKING_RUN" >&2
    exit 2
fi
fip=$(realpath "$1")
fip_sample_run=$(realpath "$2")
folder=$(mktemp -d)
packages=0 lines=0 images=0 refusals=0 finished=no

finish() {
    status=$?
    rm -rf "$folder"
    counts="$packages packages, $lines lines, $images images, $refusals refusals compared"
    if [ "$finished" = yes ]; then
        echo "all as expected: $counts"
    else
        echo "FAILED after $counts"
        exit $((status ? status : 1))
    fi
}
trap finish EXIT

fail() {
    echo "FAILED: $*" >&2
    exit 1
}

number_at() { # package position: eight bytes
    od -An -v -t u8 --endian=little -j "$2" -N 8 "$1" | tr -d ' \n'
}

identifier_at() { # package position: sixteen bytes
    od -An -v -t x1 -j "$2" -N 16 "$1" | tr -d ' \n' | sed -E 's/^(.{8})(.{4})(.{4})(.{4})/\1-\2-\3-\4-/'
}

refused() { # number, then the arguments of fip
    local number=$1
    shift
    "$fip" "$@" >"$folder/output" 2>"$folder/error" || fail "fip $* did not end well"
    [ -s "$folder/error" ] || fail "fip $* was accepted, expected $number"
    [ ! -s "$folder/output" ] || fail "fip $* was refused, but wrote to standard output"
    [ "$(wc -l <"$folder/error")" -eq 1 ] || fail "fip $* wrote other than one line on standard error"
    grep -Eq "^$number([^0-9]|\$)" "$folder/error" || fail "fip $*: $(cat "$folder/error"), expected $number"
    refusals=$((refusals + 1))
}

# Compares what fip and fiptool say of a package, line by line and image by image. The folder holds
# what each image should be: OPTION.bin for a known identifier, IDENTIFIER.bin (upper case) otherwise.
examine() { # title package folder count
    local title=$1 package=$2 wanted=$3 count=$4
    local index=0 shown line name place offset size option identifier expected file
    fiptool info "$package" >"$folder/shown" || fail "$title: fiptool info"
    "$fip" "$package" >"$folder/list" 2>"$folder/error" || fail "$title: fip"
    [ ! -s "$folder/error" ] || fail "$title: fip: $(cat "$folder/error")"
    [ "$(wc -l <"$folder/shown")" -eq "$count" ] || fail "$title: fiptool shows other than $count images"
    [ "$(wc -l <"$folder/list")" -eq "$count" ] || fail "$title: fip lists other than $count images"
    while IFS= read -r shown <&3 && IFS= read -r line <&4; do
        place=$((16 + 40 * index))
        name=${shown%%: offset=*}
        offset=$(($(sed -E 's/.*: offset=(0x[0-9A-F]+), .*/\1/' <<<"$shown")))
        size=$(($(sed -E 's/.*, size=(0x[0-9A-F]+), .*/\1/' <<<"$shown")))
        option=$(sed -E 's/.*, cmdline="--([^"]+)".*/\1/' <<<"$shown")
        identifier=$(identifier_at "$package" $place)
        expected="$identifier $offset $size $(number_at "$package" $((place + 32)))"
        if [ "$option" = blob ]; then
            [ "$name" = "${identifier^^}" ] || fail "$title: fiptool shows $name for $identifier"
            file=$wanted/$name.bin
        else
            expected="$expected $name"
            file=$wanted/$option.bin
        fi
        [ "$line" = "$expected" ] || fail "$title: fip lists '$line', expected '$expected'"
        "$fip" "$package" "$identifier" >"$folder/image" 2>"$folder/error" || fail "$title: fip gives no $identifier"
        [ ! -s "$folder/error" ] || fail "$title: fip: $(cat "$folder/error")"
        cmp "$folder/image" "$file" || fail "$title: $identifier differs"
        index=$((index + 1)) lines=$((lines + 1)) images=$((images + 1))
    done 3<"$folder/shown" 4<"$folder/list"
    [ "$index" -eq "$count" ] || fail "$title: read $index lines of $count"
    refused 86 "$package" 00000000-0000-0000-0000-000000000000
    refused 86 "$package" 00000000-0000-0000-0000-0000000000ff
    packages=$((packages + 1))
    echo "same: $title: $(stat -c %s "$package") bytes, $count images"
}

# Makes a package with fiptool from OPTION=FILE and IDENTIFIER=FILE, and examines it.
# The count of images is that of the files that are not empty: fiptool leaves empty ones out.
create() { # title switches OPTION=FILE ...
    local title=$1 switches=$2 pair key arguments=() count=0
    shift 2
    rm -rf "$folder/wanted" "$folder/package"
    mkdir "$folder/wanted"
    for pair in "$@"; do
        key=${pair%%=*}
        if [[ $key =~ ^[0-9a-f]{8}-[0-9a-f]{4}-[0-9a-f]{4}-[0-9a-f]{4}-[0-9a-f]{12}$ ]]; then
            arguments+=(--blob "uuid=$key,file=${pair#*=}")
            cp "${pair#*=}" "$folder/wanted/${key^^}.bin"
        else
            arguments+=("--$key" "${pair#*=}")
            cp "${pair#*=}" "$folder/wanted/$key.bin"
        fi
        if [ -s "${pair#*=}" ]; then count=$((count + 1)); fi
    done
    # shellcheck disable=SC2086
    fiptool create $switches "${arguments[@]}" "$folder/package" || fail "$title: fiptool create"
    if [ "$expect" = accepted ]; then
        examine "$title" "$folder/package" "$folder/wanted" "$count"
    else
        refused "$expect" "$folder/package"
        refused "$expect" "$folder/package" 00000000-0000-0000-0000-000000000000
        packages=$((packages + 1))
        echo "same: $title: $(stat -c %s "$folder/package") bytes, refused with $expect"
    fi
}

own() { # size: our own bytes in a file of that size, the same for the same size
    local file=$folder/own-$1
    if [ ! -e "$file" ]; then
        awk -v size="$1" 'BEGIN { for (at = 0; at < size; at++) printf "%c", 33 + (at * 7 + size) % 89 }' >"$file"
    fi
    echo "$file"
}

echo "== fiptool"
export DEBIAN_FRONTEND=noninteractive
install() { apt-get install -y -q arm-trusted-firmware-tools; }
install >"$folder/log" 2>&1 || { apt-get update -q && install; } >"$folder/log" 2>&1 \
    || { cat "$folder/log"; fail "arm-trusted-firmware-tools was not installed"; }
dpkg-query -W -f '${Package} ${Version} ${Architecture}\n' arm-trusted-firmware-tools

echo "== real images"
# The package is built for arm64: its index is read into a state folder of our own.
sources() {
    apt-get indextargets --format '$(REPO_URI) $(CODENAME) $(COMPONENT)' \
        'Created-By: Packages' 'Origin: Debian' 'Label: Debian' | awk '$3 == "main" && $2 !~ /-/ && !seen++ { print $1, $2 }'
}
source_line=$(sources)
if [ -z "$source_line" ]; then
    apt-get update -q >"$folder/log" 2>&1 || { cat "$folder/log"; fail "no package index"; }
    source_line=$(sources)
fi
[ -n "$source_line" ] || fail "no Debian source of packages is set up"
apt=$folder/apt
mkdir -p "$apt/lists/partial" "$apt/archives/partial" "$folder/real"
: >"$apt/status"
echo "deb [signed-by=/usr/share/keyrings/debian-archive-keyring.gpg] $source_line main" >"$apt/sources.list"
settings=(-q -o APT::Architecture=arm64 -o APT::Architectures=arm64 -o APT::Sandbox::User=root
    -o "Dir::State=$apt" -o "Dir::State::lists=$apt/lists" -o "Dir::State::status=$apt/status"
    -o "Dir::Cache=$apt" -o "Dir::Cache::archives=$apt/archives"
    -o "Dir::Etc::sourcelist=$apt/sources.list" -o Dir::Etc::sourceparts=/dev/null)
apt-get "${settings[@]}" update >"$folder/log" 2>&1 || { cat "$folder/log"; fail "no arm64 index"; }
(cd "$apt" && apt-get "${settings[@]}" download arm-trusted-firmware) >"$folder/log" 2>&1 \
    || { cat "$folder/log"; fail "arm-trusted-firmware was not fetched"; }
dpkg-deb -f "$apt"/arm-trusted-firmware_*.deb Package Version Architecture | tr '\n' ' '
echo
dpkg-deb -x "$apt"/arm-trusted-firmware_*.deb "$folder/real"
fitting=() others=()
while read -r size file; do
    title=${file#"$folder/real/usr/lib/arm-trusted-firmware/"}
    if [ $((16 + 40 * 2 + size)) -le 65536 ]; then
        fitting+=("$file")
        echo "fits: $title, $size bytes"
    else
        others+=("$file")
        echo "does not fit: $title, $size bytes"
    fi
done < <(find "$folder/real/usr/lib/arm-trusted-firmware" -type f -printf '%s %p\n' | sort -n)
[ ${#fitting[@]} -gt 0 ] || fail "no real image fits"

echo "== packages of our own bytes"
unknown=01234567-89ab-cdef-0123-456789abcdef
other=fedcba98-7654-3210-fedc-ba9876543210
expect=accepted
several=("tb-fw=$(own 700)" "soc-fw=$(own 4096)" "nt-fw=$(own 5001)" "hw-config=$(own 1)")
create "one image" "" "tb-fw=$(own 1)"
create "several images" "" "${several[@]}"
create "several images, aligned" "--align 4096" "${several[@]}"
create "platform flags" "--plat-toc-flags 0xBEEF" "${several[@]}"
create "one unknown identifier" "" "$unknown=$(own 33)"
create "known and unknown identifiers" "" "$unknown=$(own 33)" "${several[@]}" "$other=$(own 700)"
create "known and unknown identifiers, aligned" "--align 4096" "$unknown=$(own 33)" "${several[@]}" "$other=$(own 700)"
create "an empty image, which fiptool leaves out" "" "tb-fw=$(own 0)" "nt-fw=$(own 700)"
: >"$folder/options"
fiptool create 2>&1 | sed -nE 's/^ +--([^ ]+) +FILENAME.*/\1/p' >"$folder/options" || true
known=()
while read -r option; do known+=("$option=$(own $((100 + ${#known[@]})))"); done <"$folder/options"
[ ${#known[@]} -gt 0 ] || fail "fiptool's usage was not understood"
create "all ${#known[@]} known identifiers" "" "${known[@]}"
many=()
for index in $(seq 1 65); do many+=("$(printf '%08x-0000-0000-0000-000000000000' "$index")=$(own "$index")"); done
create "64 images" "" "${many[@]:0:64}"
create "65536 bytes" "" "nt-fw=$(own $((65536 - 16 - 80)))"
expect=83
create "65 images" "" "${many[@]}"
expect=81
create "65537 bytes" "" "nt-fw=$(own $((65537 - 16 - 80)))"

echo "== packages of real images"
for file in "${fitting[@]}"; do
    title=${file#"$folder/real/usr/lib/arm-trusted-firmware/"}
    size=$(stat -c %s "$file")
    expect=accepted
    create "$title" "" "soc-fw=$file"
    if [ $((16 + 40 * 5 + 700 + 4096 + 33 + size)) -gt 65536 ]; then expect=81; fi
    create "$title and our own bytes" "" "tb-fw=$(own 700)" "soc-fw=$file" "nt-fw=$(own 4096)" "$unknown=$(own 33)"
    expect=accepted
    if [ $((4096 + (size + 4095) / 4096 * 4096)) -gt 65536 ]; then expect=81; fi
    create "$title, aligned" "--align 4096" "soc-fw=$file"
    if [ $((4096 * 3 + (size + 4095) / 4096 * 4096)) -gt 65536 ]; then expect=81; fi
    create "$title and our own bytes, aligned" "--align 4096" "tb-fw=$(own 700)" "soc-fw=$file" "$unknown=$(own 33)"
done
if [ ${#fitting[@]} -gt 1 ]; then
    size=$(cat "${fitting[@]:0:2}" | wc -c)
    expect=accepted
    if [ $((16 + 40 * 3 + size)) -gt 65536 ]; then expect=81; fi
    create "the two smallest real images" "" "soc-fw=${fitting[0]}" "nt-fw=${fitting[1]}"
fi
expect=81
for file in "${others[@]}"; do
    create "${file#"$folder/real/usr/lib/arm-trusted-firmware/"}" "" "soc-fw=$file"
done

echo "== the package of our own writer"
"$fip_sample_run" >"$folder/written" || fail "fip_sample_run"
fiptool info "$folder/written" || fail "fiptool info on the package that fip_sample_run wrote"
count=$(fiptool info "$folder/written" | wc -l)
[ "$count" -gt 0 ] || fail "fip_sample_run wrote a package without images"
mkdir "$folder/unpacked"
fiptool unpack --out "$folder/unpacked" "$folder/written" || fail "fiptool unpack"
[ "$(find "$folder/unpacked" -type f | wc -l)" -eq "$count" ] || fail "fiptool unpacked other than $count images"
wrote() { # file text
    printf "$2" | cmp - "$folder/unpacked/$1.bin" || fail "$1 is not what went in"
}
wrote tb-fw 'pump 7 starts at 06:00\n'
wrote nt-fw ''
wrote 70756D70-2D37-2D68-6F75-727300000001 'running hours 1204, bearings at 900\n'
examine "the package that fip_sample_run wrote" "$folder/written" "$folder/unpacked" "$count"

finished=yes
