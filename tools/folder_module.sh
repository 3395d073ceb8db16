# shellcheck shell=bash
# What the launcher sees in the folder of a cache. It is no tool: ../cache2 sources it. A word that is empty is the folder `.`.

# Whether a cache stands in the folder, be it one that a stopped run began, or one that never had an entry.
is_cache() {
    local part
    [[ -e $1/entries || ! -e $1/cache2/entries ]] || return 1
    for part in entries doomed index index.tmp index.log clear; do
        [[ ! -e $1/$part ]] || return 0
    done
    return 1
}

# Prints why there is no cache to be read or removed from, if there is none. What may not be looked at is left to the program.
no_cache_fault() {
    local folder=${1:-.}
    if [[ -d $folder ]]; then
        [[ -x $folder ]] && ! is_cache "$folder" || return 0
        printf "%s is no cache: it has no folder 'entries'" "$(shown "$folder")"
        [[ ! -d $folder/cache2/entries ]] || printf ', but %s has one' "$(shown "$folder/cache2")"
    elif [[ -e $folder ]]; then
        printf '%s is no cache: it is no folder' "$(shown "$folder")"
    elif [[ $(LC_ALL=C stat -L -- "$folder" 2>&1) != *'Permission denied' ]]; then
        printf '%s is no cache: there is no such folder' "$(shown "$folder")"
    fi
}

# Whether one of the first files has metadata of version 4: the number 4 stands before its last four bytes, where each other
# version has the zero byte that ends the metadata.
has_newer_entries() {
    find "${1:-.}/entries" -maxdepth 1 -type f -size +7c -print0 2>/dev/null | head -z -n 64 |
        xargs -0r tail -q -c 8 -- 2>/dev/null | od -An -v -tx1 -w8 | grep -q '^ 00 00 00 04'
}

# Prints what is seen that makes a disk fail, each with `; ` before it.
disk_faults() {
    local folder=${1:-.}
    if [[ -d $folder ]]; then
        parts_faults "$folder"
        files_faults "$folder/entries"
        files_faults "$folder/doomed"
        other_runs "$folder"
    fi
    # One that is missing could not be made.
    while [[ ! -e $folder && $folder != "$(dirname -- "$folder")" ]]; do
        folder=$(dirname -- "$folder")
    done
    if [[ -d $folder ]]; then
        rights_faults "$folder"
        room_faults "$folder"
    else
        printf '; %s is no folder' "$(shown "$folder")"
    fi
}

# Of a folder that stands.
rights_faults() {
    if [[ ! -w $1 ]]; then
        if findmnt -n -o OPTIONS -T "$1" 2>/dev/null | grep -Eq '(^|,)ro(,|$)'; then
            printf '; %s is on a mount that is read-only' "$(shown "$1")"
        else
            printf '; %s may not be written to' "$(shown "$1")"
        fi
    fi
    [[ -r $1 && -x $1 ]] || printf '; %s may not be read' "$(shown "$1")"
}

# Of the folders and files that have names of their own.
parts_faults() {
    local part
    for part in "$1"/{entries,doomed}; do
        if [[ -L $part || -e $part && ! -d $part ]]; then
            printf '; %s is no folder' "$(shown "$part")"
        elif [[ -e $part ]]; then
            rights_faults "$part"
        fi
    done
    for part in "$1"/{index,index.log,index.tmp,clear}; do
        if [[ -L $part || -e $part && ! -f $part ]]; then
            printf '; %s is no file' "$(shown "$part")"
        elif [[ -e $part && ! -r $part ]]; then
            printf '; %s may not be read' "$(shown "$part")"
        fi
    done
}

# Of the files in a folder whose names are those of entries or numbers.
files_faults() {
    local -a found
    local names='.*/([0-9A-F]{40}|[0-9]+)'
    mapfile -d '' -t found < <(find "$1" -maxdepth 1 -type f ! -readable -print0 2>/dev/null | sort -z)
    ((${#found[@]} == 0)) ||
        printf '; files that may not be read: %d, the first %s' ${#found[@]} "$(shown "${found[0]}")"
    mapfile -d '' -t found < <(find "$1" -maxdepth 1 -regextype posix-extended -regex "$names" ! -type f -print0 2>/dev/null |
        sort -z)
    ((${#found[@]} == 0)) ||
        printf '; links or folders in the place of files: %d, the first %s' ${#found[@]} "$(shown "${found[0]}")"
}

room_faults() {
    local free
    free=$(df -Pk -- "$1" 2>/dev/null | awk 'NR == 2 { print $4 }')
    [[ ! $free ]] || ((free >= 64)) || printf '; the disk of %s is full: %d KB are free' "$(shown "$1")" "$free"
    # Some file systems make inodes as they need them, and say that they have none.
    df -Pi -- "$1" 2>/dev/null | awk 'NR == 2 && $2 > 0 && $4 == 0 { found = 1 } END { exit !found }' &&
        printf '; the disk of %s has no inodes left' "$(shown "$1")"
}

# Processes that have the folder or a part of it open.
other_runs() {
    local process
    for process in $(open_files | folder=$(readlink -f -- "$1") awk -F'\t' '
        BEGIN { folder = ENVIRON["folder"] }
        $2 == folder { print $1 }
        index($2, folder "/") == 1 && substr($2, length(folder) + 2) ~ /^(entries|doomed|index)/ { print $1 }' | sort -un); do
        printf '; process %d has it open (%s)' "$process" "$(cat "/proc/$process/comm" 2>/dev/null)"
    done
}

# The number of each process with what it has open.
open_files() {
    find /proc/[0-9]*/fd -maxdepth 1 -type l -printf '%h\t%l\n' 2>/dev/null | sed 's|^/proc/\([0-9]*\)/fd|\1|'
}
