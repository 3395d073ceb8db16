# shellcheck shell=bash
# What the tools beside this file share that compile without proof, and source it. It is no tool. `kit` is the kit's folder.

# Makes a mirror of the kit in a folder. The kit is found by the real place of its `rt`, so that file and the one that it
# reads are copied; the rest are links. Where a second word is given, each program that is linked is copied to that file.
mirror_kit() {
    local mirror=$1 copy=${2-}
    # shellcheck disable=SC2154 # who sources this has set it
    mkdir -p -- "$mirror/bin" "$mirror/toolchain/bin" &&
        ln -st "$mirror" -- "$kit"/!(bin|toolchain) &&
        ln -st "$mirror/bin" -- "$kit"/bin/!(rt|rtlib.py|rattle) &&
        cp -- "$kit"/bin/{rt,rtlib.py} "$mirror/bin" &&
        ln -st "$mirror/toolchain" -- "$kit"/toolchain/!(bin) &&
        ln -st "$mirror/toolchain/bin" -- "$kit"/toolchain/bin/!(clang|ld.lld) &&
        checker >"$mirror/bin/rattle" &&
        compiler >"$mirror/toolchain/bin/clang" &&
        linker "$copy" >"$mirror/toolchain/bin/ld.lld" &&
        chmod +x -- "$mirror/bin/rattle" "$mirror/toolchain/bin"/{clang,ld.lld}
}

# Beside a try `rt` has this look for names that a proof will refuse, which is not what is asked here.
checker() {
    printf '#!%s\n' "$BASH"
}

# What compiles a module is the tool beside this file.
compiler() {
    printf '#!%s\nexec %q %q %q %q "$@"\n' "$BASH" "$BASH" "$(dirname -- "${BASH_SOURCE[0]}")/compile-module" \
        "$kit/toolchain/bin/"{clang,ld.lld}
}

# What is linked is the file that follows the word -o. It gets no environment.
# shellcheck disable=SC2016 # what stands here is a script
linker() {
    printf '#!%s\n%q "$@" || exit\n' "$BASH" "$kit/toolchain/bin/ld.lld"
    [[ ! $1 ]] || printf 'while [[ $1 != -o ]]; do shift; done\n%q -- "$2" %q\n' "$(type -P cp)" "$1"
}

# Says that there is no room in a folder, where there is none for what a compile writes, about 50 MB.
is_full() {
    local free
    free=$(df -Pk -- "$1" 2>/dev/null | awk 'NR == 2 { print $4 }')
    [[ $free ]] && ((free < 50000)) &&
        say "there is no room in '$1': $((free / 1000)) MB are free, and a compile takes about 50 (TMPDIR names another folder)"
}
