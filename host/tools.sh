# shellcheck shell=sh disable=SC2154,SC2034,SC2086
# host/tools.sh: what run, bench, the Makefile, host/host-test, examples/show and command/test share. It is sourced, with $me the name for messages and
# $top the root of the project. The library is x86-64 code: on aarch64 a cross compiler links and Debian's emulator runs. What is built here lies in
# target/host; the toolchain keeps its own work in crates/*/out.

triple=x86_64-unknown-linux-gnu
built=$top/target/host
# Debian's emulator by its full path
qemu=/usr/bin/qemu-x86_64

say() { printf '%s: %s\n' "$me" "$*" >&2; }
die() { say "$@"; exit 2; }

case $(uname -m) in
x86_64) linker=cc static='' emulator='' cross='' ;;
aarch64 | arm64) linker=x86_64-linux-gnu-gcc static=-static emulator=$qemu cross=yes ;;
*) die "the library is x86-64 code, and there is no recipe for running it on $(uname -m)" ;;
esac

# has COMMAND..: are all of them there?
has() {
    for word in "$@"; do
        command -v "$word" >/dev/null 2>&1 || return 1
    done
}

# lock, unlock: of two that build in this folder at once, the second waits for the first
lock() {
    mkdir -p "$built"
    # not a file of target/, which anybody may remove
    exec 9<"$top/crates.txt"
    flock -n 9 || {
        say "another command is building in this folder; waiting for it"
        flock 9
    }
}
unlock() { exec 9<&-; }

# bring PACKAGE..: Debian's packages, by root; anybody else is told what to do
bring() {
    how="apt-get install --no-install-recommends $*"
    [ -z "$cross" ] || how="dpkg --add-architecture amd64 && apt-get update && $how"
    has apt-get || die "these packages of Debian are wanted, or the same of another system: $*"
    [ "$(id -u)" = 0 ] || die "packages are missing; as root: $how"
    say "installing $*"
    mkdir -p "$built"
    {
        [ -z "$cross" ] || dpkg --add-architecture amd64
        apt-get -o DPkg::Lock::Timeout=300 update -qq
        DEBIAN_FRONTEND=noninteractive apt-get -o DPkg::Lock::Timeout=300 install -y -qq --no-install-recommends "$@"
    } >"$built/install.log" 2>&1 || {
        tail -n 15 "$built/install.log" >&2
        die "the packages could not be installed (all of it in target/host/install.log); try by hand: $how"
    }
}

# find_rustc: sets $rustc to a Rust that has the standard library of x86-64; one of rustup may lack it on Arm
find_rustc() {
    for rustc in rustc /usr/bin/rustc; do
        base=$("$rustc" --print sysroot 2>/dev/null) || continue
        [ ! -d "$base/lib/rustlib/$triple/lib" ] || return 0
    done
    return 1
}

ready_c() { has "$linker" ${emulator:+"$emulator"}; }
ready_rust() { ready_c && find_rustc; }

# need_c: a C compiler for x86-64, and what runs its programs here
need_c() {
    ready_c && return 0
    if [ -n "$cross" ]; then
        bring gcc-x86-64-linux-gnu libc6-dev-amd64-cross qemu-user
    else
        bring gcc libc6-dev
    fi
    ready_c || die "the packages were installed, but $linker ${emulator:+or $emulator }is still not found"
}

# need_graphviz: the commands dot and nop
need_graphviz() {
    has dot nop && return 0
    bring graphviz
    has dot nop || die "the packages were installed, but dot or nop is still not found"
}

# need_rust: the same for Rust
need_rust() {
    ready_rust && return 0
    if [ -n "$cross" ]; then
        bring rustc libstd-rust-dev:amd64 gcc-x86-64-linux-gnu libc6-dev-amd64-cross qemu-user
    else
        bring rustc gcc libc6-dev
    fi
    ready_rust || die "the packages were installed, but there is still no Rust for $triple"
}

# stale FILE SOURCE..: is FILE missing, or older than something in the sources? What rt keeps in out/ is no source.
stale() {
    made=$1
    shift
    [ -f "$made" ] || return 0
    for source in "$@"; do
        [ ! -e "$source" ] || [ -z "$(find "$source" -name out -prune -o -type f -newer "$made" -print | head -n 1)" ] || return 0
    done
    return 1
}

no_rattle() {
    die "the Rattle toolchain is missing: its command rt, which proves and builds the library, is not on the PATH." \
        "Install the kit and add its bin folder to the PATH."
}

# want_rattle: is the toolchain there, where the library has to be built? To be asked before anything is installed.
want_rattle() { has rt || ! stale "$built/libpachallu.a" "$top/crates" "$top/crates.txt" || no_rattle; }

# crates_seen: names each crate of which rt has told something, as it comes
crates_seen() {
    seen=' '
    while IFS= read -r line; do
        case $line in
        *::*:\ proved) crate=${line#* } crate=${crate%%::*} ;;
        *) continue ;;
        esac
        case $seen in
        *" $crate "*) ;;
        *) seen="$seen$crate " && say "    $crate" ;;
        esac
    done
}

# rattle CRATE WORD FILE: what rt WORD makes of a crate, its file out/FILE; it proves that crate and those below it where that is not done yet
rattle() {
    has rt || no_rattle
    mkdir -p "$built"
    say "building and proving, some minutes the first time (rt $2 in crates/$1):"
    {
        (cd "$top/crates/$1" && rt "$2" 9>&- 2>&1 </dev/null) && echo 0 >"$built/rt.status" || echo 1 >"$built/rt.status"
    } | tee "$built/rt.log" | crates_seen
    [ "$(cat "$built/rt.status")" = 0 ] || {
        tail -n 30 "$built/rt.log" >&2
        die "rt $2 in crates/$1 did not succeed (all of it in target/host/rt.log)"
    }
    [ -f "$top/crates/$1/out/$3" ] || die "rt $2 in crates/$1 left no crates/$1/out/$3"
}

# need_made FILE CRATE WORD MADE: target/host/FILE, a copy of what rt WORD makes of a crate as out/MADE
need_made() {
    ! stale "$built/$1" "$top/crates" "$top/crates.txt" && return 0
    lock
    ! stale "$built/$1" "$top/crates" "$top/crates.txt" || {
        rattle "$2" "$3" "$4"
        cp "$top/crates/$2/out/$4" "$built/$1.new"
        mv "$built/$1.new" "$built/$1"
    }
    unlock
}

# need_archive: the library, $archive
need_archive() {
    archive=$built/libpachallu.a
    need_made libpachallu.a pachallu_c lib libpachallu_c.a
}

# flags: how every C program of the project is compiled. The tests add -Werror: a compiler of tomorrow may warn of more, and still build.
flags='-std=c99 -pedantic -O2 -Wall -Wextra -Wshadow'

# need_command: the command pachallu, $pachallu, to be started with $emulator before it
need_command() {
    want_rattle
    need_c
    need_archive
    pachallu=$built/pachallu
    ! stale "$pachallu" "$top/command" "$top/include" "$archive" && return 0
    lock
    ! stale "$pachallu" "$top/command" "$top/include" "$archive" || {
        "$linker" $flags $static -I "$top/include" "$top"/command/*.c "$archive" -o "$pachallu.new" ||
            die "command/ could not be compiled and linked"
        mv "$pachallu.new" "$pachallu"
    }
    unlock
}

# quoted WORD: the word as the shell reads it back
quoted() { printf "'%s' " "$(printf %s "$1" | sed "s/'/'\\\\''/g")"; }

# need_table: the program table, and the shell words that start it, $table. (rt run makes it, and runs it on no input.)
need_table() {
    need_made table table run table
    table=$(quoted "$built/table")
    # the program is linked with the C library of x86-64, which Debian's cross compiler brings
    [ -z "$cross" ] || table="$(quoted "$emulator")-L /usr/x86_64-linux-gnu $table"
}

# compile NAME: host/NAME.rs with the library linked in, as target/host/NAME
compile() {
    ! stale "$built/$1" "$top/host" "$archive" && return 0
    lock
    "$rustc" --edition 2021 --target "$triple" -C linker="$linker" -C opt-level=3 \
        -L "${archive%/*}" -l static=pachallu "$top/host/$1.rs" -o "$built/$1.new" || die "host/$1.rs could not be compiled and linked"
    mv "$built/$1.new" "$built/$1"
    unlock
}
