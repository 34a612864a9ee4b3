# What the scripts share: where things lie, a Rust compiler, the archive of the proved entries, and the box.
# What is missing is installed where BESIDE_INSTALL is set, as .ci/run does, and only named otherwise.
# BESIDE_ARCHIVE names another archive, to see that wrong entries are caught, and BESIDE_SHAPE the shaper's program, which has to be
# there then.
set -euo pipefail

top=$(cd "$(dirname "${BASH_SOURCE[0]}")/.." && pwd)
firmware=$top/crates/firmware
built=$top/target/beside
target=x86_64-unknown-linux-gnu
archive=${BESIDE_ARCHIVE:-$built/libfirmware.a}
program=${BESIDE_SHAPE:-$top/crates/shape/out/shape}
mkdir -p "$built"

give_up() { # STATUS WORDS..
    echo "${*:2}" >&2
    exit "$1"
}

# The script's own head, for whoever asked with other words than it takes; 0 where --help was asked for.
usage() { # STATUS
    sed -n '2,/^[^#]/{/^#/s/^# \{0,1\}//p}' "$0" >&2
    exit "$1"
}

is_number() { [[ ${1:-} =~ ^[0-9]+$ ]]; }

if [ "${1:-}" = --help ]; then usage 0; fi

# Runs a command and shows what it says only if it fails.
quietly() {
    "$@" >"$built/log" 2>&1 || { cat "$built/log" >&2; return 2; }
}

as_root() {
    if [ "$(id -u)" = 0 ]; then "$@"; else sudo -n "$@"; fi
}

install_package() { # NAME
    export DEBIAN_FRONTEND=noninteractive
    as_root apt-get install -y "$1" || { as_root apt-get update && as_root apt-get install -y "$1"; }
}

is_new_enough() { # RUSTC
    local version
    version=$("$1" --version 2>/dev/null | cut -d ' ' -f 2) || return 1
    [ "$(printf '%s\n' 1.63 "$version" | sort -V | head -n 1)" = 1.63 ]
}

choose_rustc() {
    for rustc in rustc "${HOME:-}/.cargo/bin/rustc" /usr/bin/rustc; do
        if is_new_enough "$rustc"; then return; fi
    done
    return 1
}

find_rustc() {
    choose_rustc && return
    [ -n "${BESIDE_INSTALL:-}" ] || give_up 77 "there is no rustc 1.63 or newer, so nothing was done; BESIDE_INSTALL=1 lets this script install it"
    echo "installing rustc" >&2
    install_package rustc >"$built/log" 2>&1 || true
    choose_rustc || give_up 77 "there is no rustc 1.63 or newer and none could be installed, so nothing was done"
}

find_kit() {
    command -v rt >/dev/null || give_up 2 "rt is not in the path"
    kit=$(dirname "$(rt doc)")
}

# Whether a file is missing or older than one of its sources.
is_stale() { # FILE SOURCE..
    [ ! -e "$1" ] || [ -n "$(find "${@:2}" -newer "$1" -print -quit)" ]
}

# Copies the crate with the fields of the states, of what a step hands over, of morx's lists and of class pairs made public, with every read
# that fails noted, and with an index asked for a glyph's class before the class table is.
open_crate() {
    local opened='RearrangementState|ContextualState|LigatureState|InsertionState|Format1State|Format4State|Rearrange|Array' file
    opened+='|Chains|Chain|Features|Subtables|Subtable|Format2'
    for file in aat.rs parse.rs; do
        sed -E "/^ *pub struct ($opened)\\b/,/\}/ s/^( *)([a-z_]+:)/\\1pub \\2/" "$top/docs/src/$file" >"$built/$file"
    done
    sed -i '/fn from_be_data(/,/^    }/ s/^\( *\)None$/\1super::failed_read()/' "$built/parse.rs"
    sed -i 's/^\( *\)\(lookup::<u16>(&self.data, self.class_table .*.unwrap_or([0-9])\)$/\1super::indexed(glyph_id).unwrap_or_else(|| \2)/' "$built/aat.rs"
}

# What a program is linked with besides the library; its age tells nothing.
linked=()

# Builds a program of beside/src/programs on the library of beside/src, both in a folder and with the same words to the compiler, where
# something that they are made of is newer. Code that no program comes to is a fault. A failure is its status, so that nobody who tests that
# goes on with an older program.
build_program() { # FOLDER PROGRAM WORDS..
    local library=$1/libbeside.rlib name=$1/$2 words=(--edition 2021 -D dead_code "${@:3}")
    mkdir -p "$1"
    if is_stale "$library" "$top/beside" "$top/docs" "$firmware/aat.h"; then
        open_crate
        quietly "$rustc" "${words[@]}" --crate-type rlib --crate-name beside "$top/beside/src/lib.rs" -o "$library" || return
    fi
    if [ ${#linked[@]} -gt 0 ] || is_stale "$name" "$library"; then
        quietly "$rustc" "${words[@]}" --extern beside="$library" "$top/beside/src/programs/$2.rs" -o "$name" "${linked[@]}" || return
    fi
}

# The programs that compare: the crate's panics are part of its answers.
build_comparing() { # PROGRAM
    find_rustc
    build_program "$built" "$1" -O -C overflow-checks=on
}

compile() { # FILE OBJECT WORDS..
    quietly "$kit/toolchain/bin/clang" --target=$target --no-default-config -O2 -Wall -Wextra -Werror "${@:3}" -c "$1" -o "$2"
}

# Links objects and the archive to a program.
link() { # PROGRAM OBJECT..
    quietly "$kit/bin/rattle-link" --target $target --toolchain "$kit/toolchain" -o "$@" "$archive"
}

# Proves the entries and builds their archive by `rt lib`, where their sources are newer; what is being proved is told on standard error.
prove_archive() { # WORDS..
    if [ -n "${BESIDE_ARCHIVE:-}" ]; then return; fi
    if is_stale "$archive" "$top/crates.txt" "$top"/crates/*/{src,specs,proofs}; then
        (cd "$firmware" && rt lib "$@" 2>&1) | tee "$built/log" | sed -un 's/^rt: chose .* for /proving /p' >&2 ||
            { cat "$built/log" >&2; give_up 2 "there is no archive to compare"; }
        mkdir -p "$(dirname "$archive")"
        cp "$firmware/out/libfirmware.a" "$archive"
    fi
}

# For every x86-64 processor; Rattle's own choice are those of version 2.
find_archive() {
    prove_archive --cpu x86-64
}

# The box as a program.
build_box() {
    compile "$firmware/box.c" "$built/box.o"
    link "$built/box" "$built/box.o"
}
