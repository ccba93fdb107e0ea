# What hydra, release/make and release/verify share. They set root, the repository's folder, and me, their name, and source this file, which does nothing
# by itself. It needs bash 4.4, coreutils and, to unpack, xz: no git and no network, so that a tarball of the repository works as a clone does.
# shellcheck shell=bash disable=SC2034,SC2154

# The program as rt builds it here, and the checksum of the sources that the wrapper built it from.
program=$root/crates/hydra/out/hydra
note=$root/crates/hydra/out/hydra.sources
# The release, and the folder that it is unpacked into. Git ignores that folder.
archive=$root/release/hydra-x86_64-linux.xz
checksums=$root/release/CHECKSUMS
unpacked=$root/release/.unpacked

# say LINE: on standard error, since standard output is the program's own.
say() {
    printf '%s: %s\n' "$me" "$1" >&2
}

# sum_of FILE: the SHA-256 of its bytes.
sum_of() {
    local sum rest
    sum=$(sha256sum <"$1") || return 1
    read -r sum rest <<<"$sum"
    printf '%s\n' "$sum"
}

# The lines of crates.txt of the program and of every crate that it stands on, with one blank between words and sorted. Other lines and comments are left
# out, so that a new crate of tests or cases does not make the release stale. A library with no line of its own is the toolchain's.
crate_lines() {
    local -A line_of=() is_taken=()
    local -a words wanted=(hydra)
    local line name
    while IFS= read -r line || [ -n "$line" ]; do
        line=${line%%#*}
        read -ra words <<<"${line//,/ }"
        [ "${#words[@]}" -eq 0 ] || line_of[${words[0]%%:*}]=${words[*]}
    done <"$root/crates.txt"
    while [ "${#wanted[@]}" -gt 0 ]; do
        name=${wanted[0]}
        wanted=("${wanted[@]:1}")
        line=${line_of[$name]:-}
        if [ -n "$line" ] && [ -z "${is_taken[$name]:-}" ]; then
            is_taken[$name]=1
            printf '%s\n' "$line"
            read -ra words <<<"${line#*:}"
            wanted+=("${words[@]}")
        fi
    done | LC_ALL=C sort
}

# The files that the program is built from, ended by NUL, in one order whatever the locale: the code, definitions and proofs of those crates. No other file
# is read by a check, so what an editor leaves beside them does not count.
source_files() (
    files=()
    unset GLOBIGNORE
    shopt -s globstar nullglob
    cd -- "$root" || exit 1
    while read -r name _; do
        name=crates/${name%%:*}
        files+=("$name"/{src,specs,proofs}/**/*.{rt,antt})
    done < <(crate_lines)
    [ "${#files[@]}" -gt 0 ] && printf '%s\0' "${files[@]}" | LC_ALL=C sort -z
)

# One checksum of all that the program is built from, but the toolchain: the lines of crates.txt, HANDLES, and a line of checksum and path for each file.
# It depends on names and bytes alone, not on times, modes or where the checkout lies.
sources_sum() (
    set -o pipefail
    cd -- "$root" || exit 1
    mapfile -d '' -t files < <(source_files)
    [ "${#files[@]}" -gt 0 ] && sum=$({ crate_lines && sha256sum -- HANDLES "${files[@]}"; } | sum_of /dev/stdin) && printf '%s\n' "$sum"
)

# Whether the program was proved and built in this checkout from the sources as they are. Where the wrapper built it, the checksum beside it tells,
# since a checkout of another commit and back makes sources newer that have not changed. Where rt alone built it, no source may be newer.
is_current() {
    local file sources
    [ -x "$program" ] || return 1
    if [ "$note" -nt "$program" ]; then
        sources=$(sources_sum) && [ "$(<"$note")" = "$sources" ]
        return
    fi
    while IFS= read -r -d '' file; do
        [ ! "$root/$file" -nt "$program" ] || return 1
    done < <(printf '%s\0' crates.txt HANDLES; source_files)
}

# recorded WHAT: what the text of checksums says of the program, the archive, the sources or the toolchain.
recorded() {
    local what value
    [ -f "$checksums" ] || return 1
    while read -r what value; do
        if [ "$what" = "$1" ]; then
            printf '%s\n' "$value"
            return
        fi
    done <"$checksums"
    return 1
}

# unpack: writes the released program to standard output, whatever options for xz the environment has.
unpack() {
    XZ_DEFAULTS='' XZ_OPT='' xz --decompress --stdout <"$archive"
}
