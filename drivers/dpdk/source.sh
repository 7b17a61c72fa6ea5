# shellcheck shell=bash
# Finds the DPDK for a run: Debian's, or the one that --source names. Shared by drivers/dpdk/run and c/drive/dpdk/run;
# source common.sh first.
#
# find_source sets SOURCE (a complete source, for headers that aren't installed), DRIVER (the driver's folder), PLACE
# (its name in output) and VERSION (DPDK's, as text). build_libraries then builds a tree's libraries, and sets
# PKG_CONFIG_PATH.

WHERE=  # what --source names
BISECT= # not empty: the statuses are for `git bisect run`
TREE=   # the tree whose libraries are used; empty: libdpdk-dev's libraries
MAY_INSTALL= # not empty: libdpdk-dev is installed if it is missing
OLDEST=22.11 # the oldest release on which the runs were tried
TICK=10      # seconds between two lines about the progress of compiling
LAYOUTS="drivers/net/intel/ixgbe drivers/net/ixgbe"
NEEDED=bus/pci,bus/vdev,mempool/ring,net/null # the driver itself is compiled by the Makefile

# is_source WORD: whether it is a folder or debian:SUITE.
is_source() { [[ ${1-} =~ ^debian:[a-z][a-z-]*$ ]] || { [ -n "${1-}" ] && [[ $1 != debian:* && $1 != --* ]]; }; }

# uncompiled WORDS..: ends the script because the source doesn't compile: status 125 with --bisect, else 2.
uncompiled() {
    # shellcheck disable=SC2034 # junit.sh uses it
    SAID=$*
    say "$@"
    [ -z "$BISECT" ] || exit 125
    exit 2
}

# for_bisect STATUS: prints the script's status, translated for `git bisect run` with --bisect: 128 ends the bisection.
for_bisect() {
    if [ -n "$BISECT" ] && [ "$1" -ge 2 ] && [ "$1" != 125 ]; then echo 128; else echo "$1"; fi
}

# driver_in TREE: prints the driver's folder, relative to the tree; nothing if there is none.
driver_in() {
    local layout
    for layout in $LAYOUTS; do
        [ ! -f "$1/$layout/ixgbe_ethdev.c" ] || { echo "$layout"; return; }
    done
}

# tree_of FOLDER: prints the tree that contains a driver's folder; nothing if there is none.
tree_of() {
    local layout
    for layout in $LAYOUTS; do
        [[ $1 == */$layout && -f ${1%/"$layout"}/meson_options.txt ]] && { echo "${1%/"$layout"}"; return; }
    done
    return 0
}

# folder_for NAME: prints this source's build folder.
folder_for() {
    out_folder "$1${WHERE:+-$(printf %s "$(readlink -f "$DRIVER") $TREE" | sha256sum | cut -c 1-8)}"
}

# Ends the script if libdpdk-dev is missing, unless --install allows the script to install it.
need_libraries() {
    dpkg -s libdpdk-dev >/dev/null 2>&1 && return
    [ -n "$MAY_INSTALL" ] || die "libdpdk-dev isn't installed: apt-get install libdpdk-dev, or pass --install, as root"
    install_package libdpdk-dev
}

# fetch_source VERSION: fetches DPDK's source package and prints its folder.
fetch_source() {
    local status=0
    (get_source dpdk "$1") || status=$?
    [ $status = 0 ] && return
    ! grep -q ' 404 ' "$WORK/dpdk-$1/log" 2>/dev/null \
        || say "the mirror lists dpdk $1 but doesn't have its files: download the release, and pass --source FOLDER"
    return $status
}

# Uses Debian's libraries, and the source that they were built from.
take_installed() {
    need apt-get:apt dpkg-source:dpkg-dev
    need_libraries
    VERSION=$(dpkg-query -W -f '${source:Version}' libdpdk-dev)
    SOURCE=$(fetch_source "$VERSION")
}

# check_version VERSION: ends the script if this release of DPDK is too old.
check_version() {
    [ "$(printf '%s\n' "$1" "$OLDEST" | sort -V | head -n 1)" = "$OLDEST" ] \
        || uncompiled "DPDK $1 is too old: these runs support $OLDEST and later releases"
}

# with_progress COMMAND.. -- COMMAND..: executes the second command. Until it ends, prints the first command's output
# every ten seconds.
with_progress() {
    local shows=() ticker status=0
    while [ "$1" != -- ]; do
        shows+=("$1")
        shift
    done
    while sleep "$TICK" >/dev/null 2>&1 && kill -0 $$ 2>/dev/null; do say "$("${shows[@]}")"; done &
    ticker=$!
    "${@:2}" || status=$?
    kill $ticker 2>/dev/null || true
    wait $ticker 2>/dev/null || true
    return $status
}

# tree_options TREE: prints meson's options, as far as this version supports them. The target is a generic x86-64, so
# that runs are the same on every machine.
tree_options() {
    local option
    for option in "enable_drivers=$NEEDED" "enable_libs=security,cryptodev" "disable_apps=*" tests=false \
        enable_kmods=false platform=generic; do
        ! grep -q "option('${option%%=*}'" "$1/meson_options.txt" || echo "-D$option"
    done
}

# build_tree FOLDER: builds the part of TREE's libraries that changed, and installs them in FOLDER.
build_tree() {
    local at=$1 options
    need meson:meson ninja:ninja-build pkg-config:pkg-config python3:python3 gcc:gcc
    # the system's Python, which has Debian's modules
    local PATH=/usr/bin:/bin:$PATH
    python3 -c 'import elftools' 2>/dev/null || die "not installed: elftools; apt-get install python3-pyelftools"
    mapfile -t options < <(tree_options "$TREE")
    if [ "$(cat "$at/options" 2>/dev/null)" != "${options[*]}" ] || [ ! -f "$at/build/build.ninja" ]; then
        say "configuring $TREE; the log is $at/log"
        rm -rf "$at"
        mkdir -p "$at"
        with_progress last_line "$at/log" -- configure_tree "$at" "${options[@]}" || {
            grep -a ERROR "$at/log" >&2 || true
            uncompiled "meson fails: $(first_error "$at/log"); see $at/log"
        }
        echo "${options[*]}" >"$at/options"
    fi
    [ ! -f "$at/done" ] || [ "$(ninja -C "$at/build" -n | tail -n 1)" != "ninja: no work to do." ] || return 0
    rm -f "$at/done"
    say "building the libraries of $TREE, which takes minutes; the log is $at/log"
    with_progress ninja_steps "$at/log" -- make_tree "$at" || {
        grep -aE -A 8 'error:|^FAILED' "$at/log" | head -n 40 >&2 || true
        uncompiled "the libraries of $TREE don't compile: $(first_error "$at/log"); see $at/log"
    }
    meson install -C "$at/build" --no-rebuild --quiet >"$at/log" 2>&1 || die "meson install fails: see $at/log"
    touch "$at/done"
}

configure_tree() {
    meson setup "$1/build" "$TREE" --prefix="$1/installed" --libdir=lib -Ddefault_library=static "${@:2}" \
        >"$1/log" 2>&1
}

make_tree() { ninja -C "$1/build" -j "${JOBS:-$(nproc)}" >"$1/log" 2>&1; }

# last_line LOG: prints the last line of a log.
last_line() { tail -n 1 "$1" 2>/dev/null; }

# ninja_steps LOG: prints how many of ninja's steps are done.
ninja_steps() {
    local steps
    steps=$(tail -c 2000 "$1" 2>/dev/null | grep -ao '^\[[0-9]*/[0-9]*\]' | tail -n 1 | tr -d '[]')
    echo "${steps:-0} steps are done"
}

# first_error LOG: prints the first error of a compiler, the linker or meson in a log.
first_error() {
    { grep -aE 'error:|ERROR:|cannot find -l|undefined reference|multiple definition' "$1" || tail -n 1 "$1"; } \
        | head -n 1 | sed "s|$DRIVER/||"
}

# take_tree TREE: uses a complete tree, with its own libraries.
take_tree() {
    local layout
    TREE=$(readlink -f "$1")
    SOURCE=$TREE
    layout=$(driver_in "$TREE")
    DRIVER=$TREE/$layout
    PLACE=$TREE/$layout
    VERSION=$(cat "$TREE/VERSION")
    check_version "$VERSION"
}

# Builds the libraries of the tree, if one is used.
build_libraries() {
    local at
    [ -n "$TREE" ] || return 0
    at=$WORK/dpdk-tree-$(printf %s "$TREE" | sha256sum | cut -c 1-8)
    build_tree "$at"
    export PKG_CONFIG_PATH=$at/installed/lib/pkgconfig
}

# take_suite SUITE: uses the source of a Debian suite as a complete tree.
take_suite() {
    local SUITE=$1 version source
    need apt-get:apt dpkg-source:dpkg-dev
    version=$(version_in_suite dpdk)
    [ -n "$version" ] || die "Debian's $SUITE has no dpdk"
    check_version "$version"
    source=$(fetch_source "$version")
    take_tree "$source"
    VERSION=$version
    PLACE=$(driver_in "$source")
}

# Checks that WHERE names a driver.
check_source() {
    case $WHERE in "" | debian:*) return ;; esac
    [ -f "$WHERE/ixgbe_ethdev.c" ] || [ -n "$(driver_in "$WHERE")" ] \
        || uncompiled "$WHERE is neither a DPDK source tree nor its driver's folder: it contains no ixgbe_ethdev.c"
}

# find_source: uses the source that WHERE names.
find_source() {
    check_source
    case $WHERE in
        "")
            take_installed
            PLACE=drivers/net/ixgbe
            DRIVER=$SOURCE/$PLACE
            ;;
        debian:*) take_suite "${WHERE#debian:}" ;;
        *)
            if [ -f "$WHERE/ixgbe_ethdev.c" ]; then
                DRIVER=$(readlink -f "$WHERE")
                PLACE=$DRIVER
                take_installed
            else
                take_tree "$WHERE"
            fi
            ;;
    esac
}

# Prints the checksums of the driver's C files.
sums_of_driver() { (cd "$DRIVER" && find . -name '*.[ch]' -exec sha256sum {} + | LC_ALL=C sort -k 2); }

# forget_changed OUT: makes sure that changed files, and files that include them, are recompiled whatever their
# timestamps.
forget_changed() {
    local name
    sums_of_driver >"$1/driver.now"
    touch "$1/driver.sums"
    comm -3 <(LC_ALL=C sort "$1/driver.sums") <(LC_ALL=C sort "$1/driver.now") | sed 's|.*  \./||' | LC_ALL=C sort -u \
        | while read -r name; do
            { grep -lsF "/$name" "$1"/*/*.d "$1"/*.d || true; } | sed 's/d$/o/' | xargs -r rm -f
        done
    mv "$1/driver.now" "$1/driver.sums"
}

# compile MAKEFILE OUT WORDS..: compiles the driver and the programs that run it.
compile() {
    local words=("SOURCE=$SOURCE" "DRIVER=$DRIVER" "INCLUDE=$INCLUDE" "LIBRARY=$LIBRARY" "OUT=$2" "TREE=$TREE")
    mkdir -p "$2"
    forget_changed "$2"
    words=(make -s -j "${JOBS:-$(nproc)}" -f "$1" "${words[@]}" EXPLORER="${LIBRARY%.a}_explore.a")
    tell_work "$2" "${words[@]}" theirs "${@:3}"
    made "$2" "${words[@]}" theirs || not_compiled "$2/messages"
    made "$2" "${words[@]}" "${@:3}" || not_linked "$2/messages"
}

# tell_work OUT MAKE..: prints how many files will be compiled, if there are any. OUT/objects lists them in order.
tell_work() {
    # (make -n would count every file of the driver again, because it assumes that the file of flags changes)
    "${@:2}" -n -o "$1/flags" 2>/dev/null | sed -n 's/.* -c -o \([^ ]*\).*/\1/p' >"$1/objects" || true
    TO_COMPILE=$(wc -l <"$1/objects")
    touch "$1/begun"
    [ "$TO_COMPILE" = 0 ] || say "compiling $TO_COMPILE files, in $1"
}

# compiled OUT: prints how many files have been compiled, and the first one that hasn't.
compiled() {
    local count object next=
    count=$(find "$1" -name '*.o' -newer "$1/begun" | wc -l)
    while read -r object; do
        [ "$object" -nt "$1/begun" ] || { next=$(basename "$object" .o).c; break; }
    done <"$1/objects"
    echo "compiled $((count < TO_COMPILE ? count : TO_COMPILE)) of $TO_COMPILE files${next:+; next $next}"
}

# made OUT MAKE..: executes make, and also writes its error messages to OUT/messages.
made() { with_progress compiled "$1" -- make_it "$@"; }

make_it() { { "${@:2}" 2>&1 >&3 | tee "$1/messages" >&2; } 3>&1; }

# not_compiled MESSAGES: ends the script because the driver's own files don't compile.
not_compiled() {
    local error tree=
    error=$(first_error "$1")
    [ -n "$WHERE" ] || die "the driver doesn't compile: $error"
    [ -n "$TREE" ] || tree=$(tree_of "$DRIVER")
    uncompiled "$PLACE doesn't compile against DPDK $VERSION: $error" \
        ${tree:+"(--source $tree uses that tree's own libraries)"}
}

# not_linked MESSAGES: ends the script because the driver compiles, but its runs can't be made from it. A library that
# is missing is never the driver's fault.
not_linked() {
    local error library
    error=$(first_error "$1")
    library=$(sed -n 's/.*cannot find -l\([A-Za-z0-9_.+-]*\).*/\1/p' "$1" | head -n 1)
    [ -z "$library" ] || die "the linker doesn't find lib$library.so: install the package that contains it"
    [ -n "$WHERE" ] || die "the runs don't compile or link: $error"
    ! grep -qE 'undefined reference|multiple definition' "$1" \
        || uncompiled "$PLACE compiles, but its runs don't link against DPDK $VERSION: $error"
    uncompiled "$PLACE compiles, but the bench's own files don't compile with its headers: $error"
}

# Compares the driver's files with Debian's source; a user's own tree is compared with its release.
compared() {
    local sums=$ROOT/drivers/dpdk/sums of="DPDK $VERSION" said count
    if [ -n "$WHERE" ] && [ "${of%%-*}" = "$(sed -n '1s/^# \([^-]*\).*/\1/p' "$sums")" ]; then
        of=$(sed -n '1s/^# //p' "$sums")
    fi
    said=$(compare_sums "$sums" "$of" "$DRIVER")
    case "$WHERE,$said" in
        ,* | *,not\ compared* | *,none\ changed) echo "$said" ;;
        *)
            count=$(echo "${said#changed: }" | wc -w)
            [ "$count" = 1 ] && said="differs ${said#changed: }" || said="differ ${said#changed: }"
            echo "$count of $(files_in_all "$sums") files ${said%% *} from DPDK ${VERSION%%-*}: ${said#* }"
            ;;
    esac
}

# files_in_all SUMS: prints the number of files that the driver has or that SUMS lists.
files_in_all() { { sed 1d "$1" && sums_of_driver; } | sed 's/^[^ ]*  //' | LC_ALL=C sort -u | wc -l; }

# Prints which driver it is: the number of files, their checksum, and which of them differ.
driver() {
    local files
    files=$(cd "$DRIVER" && find . -name '*.[ch]' | LC_ALL=C sort)
    echo "DPDK $VERSION, $PLACE: $(echo "$files" | wc -l) files, sha256 of all" \
        "$(cd "$DRIVER" && echo "$files" | xargs cat | sha256sum | cut -c 1-16), $(compared)"
}
