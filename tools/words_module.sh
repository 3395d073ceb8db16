# shellcheck shell=bash
# What is wrong with the words of the launcher, which says so before anything is built. It is no tool: ../cache2 sources it.
# Nothing is refused here that the program takes, and of what it answers only a key that no entry can have.

number_max=4294967295
fill_max=100000
options=(--help --version --proved --unproved --read-only)
verbs=(run put get getalt main doom evict clear flush list verify rebuild dump load fill)
declare -A follow_verb=(
    [put]=KEY [get]=KEY [getalt]=KEY [main]=KEY [doom]=KEY [evict]=KB [clear]=ORIGIN [fill]='N FIRST'
)

# A word within a line: without what would end the line or move what is on a terminal, and not too long.
shown() {
    local LC_ALL=C word=${1//[[:cntrl:]]/?}
    ((${#word} <= 200)) || word="${word:0:200}.."
    printf "'%s'" "$word"
}

is_number() {
    local LC_ALL=C
    [[ $1 =~ ^(0|[1-9][0-9]{0,9})$ ]] && (($1 <= number_max))
}

is_verb() {
    [[ " ${verbs[*]} " == *" $1 "* && $1 != *' '* && $1 ]]
}

# The system gives the program no word that is not UTF-8.
is_text() {
    local LC_ALL=C
    [[ $1 != *[!$'\x01'-$'\x7f']* ]] || ! command -v iconv >/dev/null || iconv -f UTF-8 -t UTF-8 <<<"$1" >/dev/null 2>&1
}

# distance ONE OTHER: sets `distance` to how many letters are to be changed, added or left out to make the one the other.
distance() {
    local one=$1 other=$2 i j cost
    local -a row above
    for ((j = 0; j <= ${#other}; j++)); do
        row[j]=$j
    done
    for ((i = 1; i <= ${#one}; i++)); do
        above=("${row[@]}")
        row[0]=$i
        for ((j = 1; j <= ${#other}; j++)); do
            cost=${above[j - 1]}
            [[ ${one:i-1:1} == "${other:j-1:1}" ]] || ((cost += 1))
            ((cost <= above[j] + 1)) || cost=$((above[j] + 1))
            ((cost <= row[j - 1] + 1)) || cost=$((row[j - 1] + 1))
            row[j]=$cost
        done
    done
    distance=${row[-1]}
}

# did_you_mean WORD CANDIDATE..: prints the candidate that is spelled most like the word, if one is.
did_you_mean() {
    local word=$1 candidate distance least=3 nearest=''
    shift
    if ((${#word} <= 20)); then
        for candidate; do
            distance "$word" "$candidate"
            ((distance < least && distance < ${#word})) && least=$distance nearest=$candidate
        done
    fi
    [[ $nearest ]] && printf ": did you mean '%s'?" "$nearest" || printf ": see 'cache2 --help'"
}

# What may stand where a number should.
number_fault() {
    printf '%s is %s, and should be a number from %s to %s without leading zeros' "$1" "$(shown "$2")" "$3" "$4"
}

# Of the words after the verb, of which there are as many as it takes.
followers_fault() {
    case $1 in
        put | get | getalt | main | doom)
            # Tags before the colon end in a comma.
            [[ $2 == :* || $2 == *,:* ]] ||
                printf "the key %s has no ':' before the URL: %s" "$(shown "$2")" "$(shown ":$2")" ;;
        evict)
            is_number "$2" || number_fault KB "$2" 0 "$number_max" ;;
        fill)
            if ! is_number "$2" || (($2 < 1 || $2 > fill_max)); then
                number_fault N "$2" 1 "$fill_max"
            elif ! is_number "$3"; then
                number_fault FIRST "$3" 0 "$number_max"
            fi ;;
    esac
}

# DIR NOW VERB WORD..: what is wrong with them, if anything is.
command_fault() {
    local now=${2-} verb=${3-} rest='VERB [WORD ..]'
    local -a wanted
    # shellcheck disable=SC2016 # it is shown as it is to be typed
    if (($# < 3)); then
        ! is_verb "${!#}" || rest=${!#}
        printf 'a word is missing: cache2 DIR "$(date +%%s)" %s' "$rest"
    elif is_verb "$now" && ! is_verb "$verb"; then
        printf "NOW is missing before '%s': cache2 DIR \"\$(date +%%s)\" %s" "$now" "$now"
    elif ! is_number "$now"; then
        number_fault NOW "$now" 0 "$number_max"
    elif ! is_verb "$verb"; then
        printf 'unknown verb %s%s' "$(shown "$verb")" "$(did_you_mean "$verb" "${verbs[@]}")"
    else
        read -ra wanted <<<"${follow_verb[$verb]-}"
        if (($# - 3 < ${#wanted[@]})); then
            printf 'a word is missing: cache2 DIR NOW %s' "$verb ${wanted[*]}"
        elif (($# - 3 > ${#wanted[@]})); then
            shift $((3 + ${#wanted[@]}))
            printf 'there is a word too many, %s: cache2 DIR NOW %s' "$(shown "$1")" "$verb${wanted[*]:+ ${wanted[*]}}"
        else
            followers_fault "${@:3}"
        fi
    fi
}

# Prints what is wrong with the words that are left after the launcher's options, if anything is.
words_fault() {
    local word fault
    for word; do
        is_text "$word" || { LC_ALL=C; printf "the word '%s' is not valid UTF-8" "${word//[!$'\x20'-$'\x7e']/?}"; return; }
    done
    fault=$(command_fault "$@")
    if [[ $fault && $1 == -* ]]; then
        [[ " ${options[*]} " == *" $1 "* ]] && fault="$1 is given with other words" ||
            fault="unknown option $(shown "$1")$(did_you_mean "$1" "${options[@]}")"
    fi
    printf %s "$fault"
}
