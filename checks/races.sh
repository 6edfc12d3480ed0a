#!/bin/sh
# Threads share a word, and then a notice board, for some seconds each, as many as there are processors: one bumps the
# word, or shows sheets, and the others look, by each call in turn, until they find the last count or sheet. The
# races end by themselves. The program is built where it is missing; skipped where there is no rt for that.
set -eu
top=$(cd "$(dirname "$0")/.." && pwd)
program=$(sh "$top/checks/built" test_threads)
[ -n "$program" ] || { echo "checks/races: test_threads isn't built, skipped"; exit 0; }
processors=$(nproc 2>/dev/null || getconf _NPROCESSORS_ONLN)
readers=$((processors > 1 ? processors - 1 : 1))
scratch=$(mktemp -d)
trap 'rm -rf "$scratch"' EXIT

# wanted_of_word_races BUMPS, wanted_of_board_races SHEETS: what a race of as many has to print. The word counts from 3.
wanted_of_word_races() {
    printf '# word_races\n%s readers: no count fell, and each reader found %s\nclosed at %s\n' \
        "$readers" "$(($1 + 3))" "$(($1 + 3))"
}
wanted_of_board_races() {
    printf '# board_races\n%s readers: no serial fell, each sheet and row was whole, and each reader found %s\nclosed at %s\n' \
        "$readers" "$1" "$1"
}

# race_of PART COUNT WHAT: one race.
race_of() {
    printf '# %s\n%s %s\n' "$1" "$readers" "$2" | "$program" >"$scratch/said" || {
        echo "checks/races: $readers readers, $2 $3: status $?"
        exit 1
    }
    "wanted_of_$1" "$2" >"$scratch/wanted"
    cmp -s "$scratch/wanted" "$scratch/said" || {
        echo "checks/races: $readers readers, $2 $3:"
        diff "$scratch/wanted" "$scratch/said" || true
        exit 1
    }
}

# races PART LONG WHAT: two long races, and many short ones, in which threads start and end beside the rest.
races() {
    race_of "$1" "$2" "$3"
    race_of "$1" "$2" "$3"
    turn=0
    while [ "$turn" -lt 200 ]; do
        race_of "$1" "$turn" "$3"
        turn=$((turn + 1))
    done
    echo "checks/races: 202 $1 of $readers readers"
}

races word_races 20000000 bumps
races board_races 40000 sheets
