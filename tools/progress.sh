# How far a run of `rt ci` has come: a line a minute on standard error. To be sourced, after programs.sh.

# Watches the process PID, whose output goes to the file LOG, in the repository FOLDER: tell_progress NAME PID LOG FOLDER CRATE..
# A crate that is kept from an earlier run counts as proved. A planted bug is being tried as long as `rt` has a folder for it, and one
# that was tried in an earlier run has none: these are left out of the count. A folder that has a crate as it stands is what bugs are
# tried over, and no bug; one that is as another was is that bug once more.
tell_progress() {
    local name=$1 pid=$2 log=$3 folder=$4 every=${PROGRESS_SECONDS:-60} begun=$SECONDS next edit sum bugs crates
    local -A unchanged=() sums=() settled=() tried=()
    shift 4
    next=$every
    for edit in "$folder"/crates/*/must-fail; do unchanged[$(sum_of_crate "${edit%/must-fail}")]=1; done
    while kill -0 "$pid" 2>/dev/null; do
        sleep 1
        for edit in "${TMPDIR:-/tmp}/rt-edit-$pid-"*; do
            # (a sum that came twice in a row is none of a folder that is being filled or removed)
            [ -d "$edit/src" ] && [ -z "${settled[$edit]-}" ] || continue
            sum=$(sum_of_crate "$edit")
            [ "$sum" != "${sums[$edit]-}" ] || settled[$edit]=1
            sums[$edit]=$sum
        done
        for edit in "${!sums[@]}"; do
            [ -d "$edit" ] && continue
            [ -n "${unchanged[${sums[$edit]}]-}" ] || tried[${sums[$edit]}]=1
            unset "sums[$edit]"
        done
        ((SECONDS - begun >= next)) || continue
        bugs=$(bugs_tried "${#tried[@]}" "$folder")
        crates=$(under_way "$log" "$folder" "$@")
        [ -s "$log" ] || crates=' rt reads the sources'
        printf '%s: %s min: %s of %s crates proved%s; under way:%s\n' \
            "$name" "$((next / 60))" "$(crates_proved "$log")" "$#" "$bugs" "$crates" >&2
        next=$((next + every))
    done
}

crates_proved() { grep -cE "$(rt_says proved)" "$1"; }

# The sum of all that a check reads of a crate in a folder.
sum_of_crate() {
    (cd "$1" && find src specs proofs -type f -print0 | LC_ALL=C sort -z | xargs -0 sha256sum) 2>/dev/null | sha256sum
}

# Of planted bugs, if there are any.
bugs_tried() {
    local -a every=("$2"/crates/*/must-fail/*.edit)
    [ ! -e "${every[0]}" ] || printf ', %s of %s planted bugs tried' "$1" "${#every[@]}"
}

# The crates that are begun and not done.
under_way() {
    local log=$1 folder=$2 crate
    shift 2
    for crate in "$@"; do
        [ "$folder/crates/$crate/out" -nt "$log.begun" ] || continue
        grep -qE "$(rt_says done "$crate")" "$log" || printf ' %s' "$crate"
    done
}
