# shellcheck shell=bash
# Functions shared by the scripts drivers/*/run: they fetch Debian's packages and sources, find the C library, check
# what the machine allows, and compare checksums.
#
# apt's lists, cache and source lines are kept in a private folder. The system's apt isn't changed, and only installing
# a package needs root. The sourcing script sets NAME, the prefix of messages, and ROOT, the repository. Runs keep all
# their files in the folder WORK.

WORK=${DRIVERS_WORK:-${XDG_CACHE_HOME:-${HOME:-/tmp}/.cache}/zinggapul-drivers}

say() { echo "$NAME: $*" >&2; }
# Ends the script with status 2: something that the run needs is missing.
# shellcheck disable=SC2034 # junit.sh uses SAID
die() { SAID=$*; say "$@"; exit 2; }

# Ends the script with status 1: a result is wrong.
fail() { say "$@"; exit 1; }

# Prints the script's head comment.
head_comment() { sed -n '2,/^$/s/^# \{0,1\}//p' "$0"; }

# usage [MESSAGE]: ends the script with status 3. Prints the message and how to get help; without a message, the
# script's head comment.
usage() {
    case ${1-} in
        "") head_comment >&2 ;;
        "unknown argument: -h" | "unknown argument: --help") help ;; # in a script that doesn't ask for it
        *) say "$1 ($NAME --help lists the arguments)" ;;
    esac
    exit 3
}

# Prints the script's head comment because the user requested it, and ends the script with status 0.
help() { head_comment; exit 0; }

# is_number WORD: whether WORD is a decimal number from 1 to 99,999,999.
is_number() { [[ ${1-} =~ ^[1-9][0-9]{0,7}$ ]]; }

# no_more WORDS..: rejects the remaining arguments.
no_more() { [ $# = 0 ] || usage "unknown argument: $1"; }

# allowed WHAT..: ends the script with one line if the machine or the container refuses any of ptrace, personality,
# executable-memory (shared memory) and low-memory=MEBIBYTES (from address 0x400000).
allowed() {
    local refused
    need gcc:gcc
    mkdir -p "$WORK"
    gcc -std=c11 -O1 -o "$WORK/allowed.$$" "$ROOT/drivers/common/allowed.c" || die "allowed.c doesn't compile"
    refused=$("$WORK/allowed.$$" "$@") || refused=${refused:-what it asks for}
    rm -f "$WORK/allowed.$$"
    [ -z "$refused" ] || die "this needs $refused"
}

# writable FILE [NAME]: ends the script if FILE can't be written. Messages call it NAME.
writable() {
    local folder shown=${2-$1}
    folder=$(dirname "$1")
    [ -d "$folder" ] || die "$shown can't be written: there is no folder $folder"
    { : >>"$1"; } 2>/dev/null || die "$shown can't be written"
}

# compare_sums FILE "PACKAGE VERSION" FOLDER: prints which C files in FOLDER differ from the checksums in FILE. FILE's
# first line names the package and version to which the checksums belong.
compare_sums() {
    local changed
    if [ "$(head -n 1 "$1")" != "# $2" ]; then
        echo "not compared: ${1#"$ROOT/"} has the checksums of $(head -n 1 "$1" | cut -c 3-)"
        return
    fi
    changed=$(diff <(sed 1d "$1" | LC_ALL=C sort) \
        <(cd "$3" && find . -name '*.[ch]' -exec sha256sum {} + | LC_ALL=C sort) \
        | sed -n 's|^[<>] [0-9a-f]*  \./||p' | LC_ALL=C sort -u | tr '\n' ' ')
    echo "${changed:+changed: }${changed:-none changed}" | sed 's/ $//'
}

# need COMMAND:PACKAGE..: ends the script if a command isn't installed, and names the packages to install.
need() {
    local pair missing=()
    for pair in "$@"; do
        command -v "${pair%%:*}" >/dev/null || missing+=("$pair")
    done
    [ ${#missing[@]} = 0 ] || die "not installed: ${missing[*]%%:*}; apt-get install ${missing[*]##*:}"
}

# write_system_lines FOLDER: copies the system's lines for Debian's archives to FOLDER, with source lines added.
write_system_lines() {
    local file
    for file in /etc/apt/sources.list /etc/apt/sources.list.d/*.list; do
        [ -f "$file" ] || continue
        sed -nE '/debian/{s/^deb(-src)?([ \t])/deb\2/p;s/^deb([ \t])/deb-src\1/p}' "$file" | sort -u \
            >"$1/$(basename "$file" .list).list"
    done
    for file in /etc/apt/sources.list.d/*.sources; do
        { [ -f "$file" ] && grep -q debian "$file"; } || continue
        sed -E 's/^Types:.*/Types: deb deb-src/' "$file" >"$1/$(basename "$file")"
    done
}

# write_suite_line FOLDER: writes the source line of SUITE to FOLDER, even if the system is another suite.
write_suite_line() {
    cat >"$1/suite.sources" <<LINES
Types: deb-src
URIs: ${NIC82599_MIRROR:-http://deb.debian.org/debian}
Suites: $SUITE
Components: main
Signed-By: /usr/share/keyrings/debian-archive-keyring.gpg
LINES
}

# Prints the folder of apt's lists. With SUITE the lists are separate from the system's.
apt_folder() { echo "$WORK/apt${SUITE:+-$SUITE}"; }

# Writes the source lines for apt: the line of SUITE if it is set, else the system's lines.
write_sources() {
    local at
    at=$(apt_folder)
    rm -rf "$at/parts"
    mkdir -p "$at/parts" "$at/lists/partial" "$at/cache/archives/partial"
    if [ -n "${SUITE-}" ]; then write_suite_line "$at/parts"; else write_system_lines "$at/parts"; fi
    cat >"$at/apt.conf" <<CONF
Dir::Etc::sourcelist "/dev/null";
Dir::Etc::sourceparts "$at/parts";
Dir::State::lists "$at/lists";
Dir::Cache "$at/cache";
APT::Sandbox::User "";
CONF
    export APT_CONFIG=$at/apt.conf
}

# Updates Debian's lists, at most once a day.
update() {
    local at
    at=$(apt_folder)
    write_sources
    [ -n "$(find "$at/updated" -mmin -1440 2>/dev/null)" ] && return
    say "reading Debian's lists${SUITE:+ for $SUITE}"
    apt-get -qq update || die "Debian's lists${SUITE:+ for $SUITE} can't be read"
    touch "$at/updated"
}

# version_in_suite PACKAGE: prints the newest version of the package's source in SUITE.
version_in_suite() {
    update
    apt-cache --only-source showsrc "$1" | sed -n 's/^Version: //p' | sort -V | tail -n 1
}

# get_source PACKAGE VERSION: unpacks the package's source in $WORK/PACKAGE-VERSION and prints that folder's name.
get_source() {
    local to=$WORK/$1-$2
    if [ ! -e "$to/unpacked" ]; then
        update
        rm -rf "$to"
        mkdir -p "$to"
        say "getting the source of $1 $2"
        (cd "$to" && apt-get -qq source "$1=$2" >"$to/log" 2>&1) || die "can't fetch the source of $1 $2: see $to/log"
        mv "$to"/*/ "$to/source" || die "the source of $1 isn't a single folder: see $to"
        touch "$to/unpacked"
    fi
    echo "$to/source"
}

# get_package PACKAGE: unpacks the newest version, without installing it, in $WORK/PACKAGE and prints that folder's
# name.
get_package() {
    local to=$WORK/$1
    if [ ! -e "$to/unpacked" ]; then
        update
        rm -rf "$to"
        mkdir -p "$to"
        say "getting the package $1"
        (cd "$to" && apt-get -qq download "$1" >"$to/log" 2>&1 && dpkg-deb -x ./*.deb . && rm ./*.deb) \
            || die "can't fetch or unpack the package $1: see $to/log"
        touch "$to/unpacked"
    fi
    echo "$to"
}

# Prints the name of the package with the newest Linux source, which linux-source depends on. The name contains the
# kernel's version.
linux_package() {
    apt-cache depends --important linux-source | sed -n 's/^ *Depends: \(linux-source-[0-9.]*\)$/\1/p' | head -n 1
}

# install_package PACKAGE: installs it if it is missing, which needs root.
install_package() {
    dpkg -s "$1" >/dev/null 2>&1 && return
    [ "$(id -u)" = 0 ] || die "$1 isn't installed: apt-get install $1, as root"
    update
    say "installing $1"
    DEBIAN_FRONTEND=noninteractive apt-get -qq -y --no-install-recommends install "$1" >"$WORK/install.log" 2>&1 \
        || die "$1 can't be installed: see $WORK/install.log"
}

# out_folder NAME: prints this checkout's build folder. Each checkout has a different one.
out_folder() { echo "$WORK/$1-$(printf %s "$ROOT" | sha256sum | cut -c 1-8)"; }

# has_sanitizers FOLDER: whether a program that is built with the compiler's sanitizers runs here. Such a program
# doesn't run under an emulator or if tracing is refused.
has_sanitizers() {
    echo 'int main(void) { return 0; }' >"$1/empty.c"
    gcc -fsanitize=address,undefined -o "$1/empty" "$1/empty.c" 2>/dev/null && "$1/empty" 2>/dev/null && return
    say "no sanitizers: a sanitized program doesn't link or run here, so everything runs without them"
    return 1
}

# Finds the C library: its archive and the folder of its header.
find_library() {
    INCLUDE=${NIC82599_INCLUDE:-$ROOT/c/include}
    LIBRARY=${NIC82599_ARCHIVE:-$ROOT/c/out/libnic82599.a}
    if [ -z "${NIC82599_ARCHIVE-}" ]; then
        make -s -C "$ROOT/c" >&2 || die "make -C c failed to build the library"
    fi
    [ -f "$LIBRARY" ] || die "$LIBRARY doesn't exist"
    [ -f "$INCLUDE/nic82599.h" ] || die "$INCLUDE/nic82599.h doesn't exist"
}
