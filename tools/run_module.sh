# shellcheck shell=bash
# Shows on a terminal how far a run of the program is, by what the system tells of its process and by what stands in its
# folder. It is no tool: ../cache2 sources it where standard error is a terminal.

# Whether the verb may take long. Of what is only looked at nothing goes, so that is not counted.
takes_long() {
    case $1 in
        verify | rebuild | dump | load) return 0 ;;
        evict | clear) [[ $2 != --read-only ]] ;;
        *) return 1 ;;
    esac
}

# grouped NUMBER: sets `grouped` to the number with a comma before each three digits.
grouped() {
    local number=$1
    grouped=''
    while ((number > 999)); do
        printf -v grouped ',%03d%s' $((number % 1000)) "$grouped"
        ((number /= 1000))
    done
    grouped=$number$grouped
}

count_entries() {
    find "$1/entries" -maxdepth 1 -type f -printf . | wc -c
}

bytes_of_entries() {
    find "$1/entries" -maxdepth 1 -type f -printf '%s\n' | awk '{ all += $1 } END { printf "%d", all }'
}

# The entries are read in the order of their names, which are hashes: so the one that is open tells how many were.
look_at_names() {
    local name
    ((all)) || all=$(count_entries "$folder")
    name=$(find "/proc/$run/fd" -maxdepth 1 -lname '*/entries/*' -printf '%l\n' | head -n 1)
    name=${name##*/}
    [[ ! $name =~ ^[0-9A-F]{40}$ ]] || at=$((all * 16#${name:0:8} >> 32))
}

# A dump in a file is read from its start to its end. Of one in a pipe it is known what was read.
look_at_input() {
    local word number
    if [[ ! $unit ]]; then
        unit=' MB'
        if [[ -f /proc/$run/fd/0 ]]; then
            places=fdinfo/0
            all=$(($(stat -L -c %s "/proc/$run/fd/0") / 1000000))
        fi
    fi
    while read -r word number; do
        [[ $word != pos: && $word != rchar: ]] || at=$((number / 1000000))
    done <"/proc/$run/$places"
}

# Of the entries that stood there some go. How many an eviction takes is told by how much is to go.
look_at_folder() {
    local bytes
    if ((!before)); then
        before=$(count_entries "$folder")
        bytes=$(bytes_of_entries "$folder")
        ((limit < 0 || bytes == 0 || limit * 1024 >= bytes)) || all=$((before * (bytes - limit * 1024) / bytes))
    fi
    at=$((before - $(count_entries "$folder")))
    ((at >= 0)) || at=0
}

# Sets `left` to the time that is left, once something was done. What begins anew is measured anew.
estimate() {
    local seconds
    left=''
    ((at >= last)) || since=$SECONDS from=$at
    last=$at
    if ((all && at > from)); then
        seconds=$(((SECONDS - since + 1) * (all > at ? all - at : 0) / (at - from)))
        ((seconds < 120)) && left=", $seconds s left" || left=", $((seconds / 60)) min left"
    fi
}

# The line stands below the cursor, which is then put back: what the program writes to the same terminal comes where it would
# come without it. On the last line of a terminal all lines are moved first.
show_run() {
    local grouped text
    # The run may end meanwhile.
    "$look" 2>/dev/null
    estimate
    ((at || all)) || return
    grouped "$at"
    text=$grouped
    if ((all)); then
        grouped "$all"
        text+=" of $grouped"
    fi
    ((is_shown)) || echo shown
    is_shown=1
    printf '\eD\e[A\e7\r\n\e[Kcache2: %s: %s%s%s\e8' "$verb" "$text" "$unit" "$left" >&2
}

# follow_run PROCESS FOLDER VERB [KB]: shows how far the run is from the second second on, until it ends. On standard output it
# says the number of its own process, and that it has shown something.
follow_run() {
    local run=$1 folder=${2:-.} verb=$3 limit=-1 look unit='' places=io left='' is_shown=0 pause=2
    local -i at=0 all=0 before=0 last=0 since=$SECONDS from=0
    case $verb in
        verify | rebuild | dump) look=look_at_names ;;
        load) look=look_at_input ;;
        evict) look=look_at_folder limit=$4 ;;
        clear) look=look_at_folder ;;
    esac
    echo "$BASHPID"
    while read -rt "$pause" <> <(:); (($? > 128)) && [[ -e /proc/$run ]]; do
        pause=1
        show_run
    done
}

# It is no child of the launcher: a shell that waits for one child, and is interrupted while it has another, may miss its end.
begin_following() {
    exec {follower}< <(follow_run "$@" &)
}

# The line is erased once nothing more can be written to it.
end_following() {
    local word
    read -r word <&"$follower" && kill "$word" 2>/dev/null
    while read -r word <&"$follower"; do
        printf '\e[J' >&2
    done
    exec {follower}<&-
}
