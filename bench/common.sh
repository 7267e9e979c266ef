# shellcheck shell=sh disable=SC2154
# What examples/run, tests/compare and the scripts of bench/ share. A script sets `program`, its own name, and `root`, the
# repository's root as an absolute path, and then reads this file. `quietly` also wants `work`, a folder for its log.

# One line for each tool that is missing; then the script ends.
need() {
    missing=no
    for tool in "$@"; do
        command -v "$tool" >/dev/null 2>&1 || {
            echo "$program: $tool is missing" >&2
            missing=yes
        }
    done
    [ "$missing" = no ] || exit 2
}

# Sets `archive` to the archive of the C interface: NCC_ARCHIVE if that is set, else the one that rt proves and builds.
find_archive() {
    if [ -n "${NCC_ARCHIVE:-}" ]; then
        case $NCC_ARCHIVE in
            /*) archive=$NCC_ARCHIVE ;;
            *) archive=$(pwd)/$NCC_ARCHIVE ;;
        esac
        [ -f "$archive" ] || {
            echo "$program: NCC_ARCHIVE names no file: $NCC_ARCHIVE" >&2
            exit 2
        }
        echo "$program: the archive is $NCC_ARCHIVE" >&2
        return
    fi
    need rt
    echo "$program: rt proves and builds the archive; the first time takes minutes" >&2
    mkdir -p "$root/target"
    (cd "$root/crates/ncc_c" && rt lib) >"$root/target/archive.log" 2>&1 || {
        cat "$root/target/archive.log" >&2
        echo "$program: rt lib failed on ncc_c" >&2
        exit 1
    }
    archive=$root/crates/ncc_c/out/libncc_c.a
}

# The machine that the archive's code is for, in uname's words: two bytes at offset 18 of its first object file.
archive_machine() {
    need ar
    case $(ar p "$archive" "$(ar t "$archive" | head -n 1)" | od -An -tu1 -j18 -N2 | tr -d ' ') in
        620) echo x86_64 ;;
        1830) echo aarch64 ;;
        *) echo unknown ;;
    esac
}

# Ends the script unless this machine can link the archive and run the result itself, without an emulator.
linkable() {
    for_machine=$(archive_machine)
    [ "$for_machine" = "$(uname -m)" ] || {
        echo "$program: the archive is $for_machine code and this machine is $(uname -m): it can't be linked here" >&2
        exit 1
    }
}

# Runs a command whose words are of interest only if it fails.
quietly() {
    "$@" >"$work/log" 2>&1 || {
        cat "$work/log" >&2
        echo "$program: $1 failed" >&2
        exit 1
    }
}
