# shellcheck shell=bash
# Fetches Debian's packages for the guests, each set unpacked in a separate folder in $FETCHED. A suite's signed lists
# are downloaded once per run, and removed at its end. drivers/qemu/run sources this after drivers/common/common.sh.

KEYS=/usr/share/keyrings/debian-archive-keyring.gpg

# The URI of the machine's own Debian source.
debian_uri() {
    { cat /etc/apt/sources.list /etc/apt/sources.list.d/*.list /etc/apt/sources.list.d/*.sources 2>/dev/null || :; } \
        | sed -nE 's/^URIs: *([^ ]*).*/\1/p;s/^deb +(\[[^]]*\] +)?([^ ]*) .*/\2/p' | grep -m 1 -E "/debian/?$" || :
}

# megabytes FOLDER: prints the folder's size in MB.
megabytes() { du -sm "$1" 2>/dev/null | cut -f1; }

# watched TOTAL WHAT FOLDER LOG COMMAND..: runs the command in the folder, and prints the folder's size every five
# seconds.
watched() {
    local total=$1 what=$2 folder=$3 log=$4 pid turns=0
    shift 4
    (cd "$folder" && exec "$@" >>"$log" 2>&1) &
    pid=$!
    while kill -0 "$pid" 2>/dev/null; do
        sleep 0.2
        turns=$((turns + 1))
        [ $((turns % 25)) != 0 ] || say "$what: $(megabytes "$folder")${total:+ of $total} MB"
    done
    wait "$pid"
}

# suite SUITE ARCHITECTURE: reads a suite's signed lists, as if nothing were installed, and sets APT to apt's options
# for it.
suite() {
    local at=$FETCHED/lists/$1-$2
    APT=(-q -o "Dir::Etc::sourcelist=$at/sources" -o Dir::Etc::sourceparts=/dev/null -o "Dir::State=$at"
        -o "Dir::State::lists=$at/lists" -o "Dir::State::status=$at/status" -o "Dir::Cache=$at/cache"
        -o Debug::NoLocking=1 -o APT::Sandbox::User= -o APT::Install-Recommends=false -o Acquire::Languages=none
        -o "APT::Architecture=$2" -o "APT::Architectures=$2" -o Acquire::Check-Valid-Until=false)
    [ ! -e "$at/read" ] || return 0
    rm -rf "$at"
    mkdir -p "$at/lists/partial" "$at/cache/archives/partial"
    : >"$at/status"
    : >"$FETCHED/log"
    echo "deb [signed-by=$KEYS arch=$2] $URI $1 main" >"$at/sources"
    say "reading Debian's lists of $1 for $2"
    if ! watched '' "lists of $1" "$at/lists" "$FETCHED/log" apt-get "${APT[@]}" update; then
        die "Debian's lists of $1 can't be read: see $FETCHED/log"
    fi
    touch "$at/read"
}

# Removes the lists when the run ends for any reason.
forget_lists() { rm -rf "$FETCHED/lists"; }

# archives NAME SUITE WORDS..: prints the size of the packages that apt-get fetches for these words, then fetches and
# unpacks them. NAME/packages lists the packages with their checksums.
archives() {
    local name=$1 from=$2 at=$FETCHED/$1 deb count total
    shift 2
    mkdir -p "$at/archives/partial" "$at/root"
    APT+=(-o "Dir::Cache::archives=$at/archives")
    apt-get "${APT[@]}" -y --print-uris "$@" 2>"$at/log" | sed -n "/^'/p" >"$at/uris" ||
        die "$name: apt-get can't list the packages: see $at/log"
    count=$(wc -l <"$at/uris")
    total=$(awk '{ bytes += $3 } END { printf "%d", bytes / 1048576 + 1 }' "$at/uris")
    say "$name: fetching $count $([ "$count" = 1 ] && echo package || echo packages) from $from, $total MB"
    watched "$total" "$name" "$at/archives" "$at/log" apt-get "${APT[@]}" -y "$@" ||
        die "$name: the packages can't be fetched: see $at/log"
    for deb in "$at"/archives/*.deb; do
        (cd "$at/archives" && sha256sum "$(basename "$deb")") >>"$at/packages.new"
        dpkg-deb -x "$deb" "$at/root"
    done
    rm -rf "$at/archives" "$at/uris"
    say "$name: unpacked, $(megabytes "$at/root") MB"
    mv "$at/packages.new" "$at/packages"
}

# fetch NAME SUITE ARCHITECTURE PACKAGE..: fetches these packages; with DEPENDS=yes also all their dependencies.
fetch() {
    suite "$2" "$3"
    if [ "${DEPENDS-}" = yes ]; then
        archives "$1" "$2" --download-only install "${@:4}"
    else
        archives "$1" "$2" download "${@:4}"
    fi
}

# kernel NAME SUITE ARCHITECTURE: fetches the suite's stock kernel, which the package linux-image-ARCHITECTURE depends
# on. Since 7.2, that dependency is an empty package, which depends on two others.
kernel() {
    local package parts
    suite "$2" "$3"
    package=$(apt-cache "${APT[@]}" depends --important "linux-image-$3" \
        | sed -n 's/^ *Depends: \(linux-image-[^ ]*\)$/\1/p' | head -n 1)
    [ -n "$package" ] || die "$2 has no kernel for $3"
    mapfile -t parts < <(apt-cache "${APT[@]}" depends --important "$package" \
        | sed -nE 's/^ *Depends: (linux-(binary|modules)-[^ ]*)$/\1/p')
    archives "$1" "$2" download "$package" "${parts[@]}"
}

# get NAME..: fetches the named sets that are missing (guests.py knows which run needs which).
get() {
    local name
    trap forget_lists EXIT
    for name in "$@"; do
        [ ! -e "$FETCHED/$name/packages" ] || continue
        rm -rf "${FETCHED:?}/$name"
        case $name in
            qemu) DEPENDS=yes fetch qemu sid amd64 qemu-system-x86 qemu-system-arm ipxe ipxe-qemu ;;
            tools) fetch tools bookworm amd64 busybox-static ethtool libmnl0 libc6 ;;
            tools-arm64) fetch tools-arm64 bookworm arm64 busybox-static ;;
            dpdk) DEPENDS=yes fetch dpdk bookworm amd64 dpdk-dev librte-net-ixgbe23 librte-mempool-ring23 ;;
            kernel-arm64) kernel kernel-arm64 bookworm arm64 ;;
            kernel-6.1) kernel kernel-6.1 bookworm amd64 ;;
            kernel-6.12) kernel kernel-6.12 trixie amd64 ;;
            kernel-sid) kernel kernel-sid sid amd64 ;;
            *) die "unknown set: $name" ;;
        esac
    done
    forget_lists
}
