# What the tools of this folder share about the programs of this repository. To be sourced, with `top` set to its top folder.

# All programs that a user runs.
programs=(logix logix_cover logix_explore logix_laws logix_live logix_timeline logix_wave)

# What is said where there is nothing to prove and compile with.
no_kit="the command 'rt' of the Rattle kit, which proves and compiles these sources, is not on the PATH; without it, install a package that tools/package made on a machine that has it (README.md)"

# The crates that these programs stand on, themselves among them, lowest first, a line each.
crates_of() {
    awk -F: -v programs="$*" '
        /^[[:space:]]*(#|$)/ { next }
        { split($1, head, " "); uses[head[1]] = $2 }
        function visit(name,    list, count, i) {
            if (!(name in uses) || (name in seen)) return
            seen[name] = 1
            count = split(uses[name], list, " ")
            for (i = 1; i <= count; i++) visit(list[i])
            print name
        }
        END { count = split(programs, list, " "); for (i = 1; i <= count; i++) visit(list[i]) }' "$top/crates.txt"
}

# The sum of all that a program is proved and built from.
sum_of() {
    local names
    names=$(crates_of "$1")
    {
        awk -F: -v names="$names" '
            BEGIN { count = split(names, list, "\n"); for (i = 1; i <= count; i++) wanted[list[i]] = 1 }
            /^[[:space:]]*(#|$)/ { next }
            { split($1, head, " "); if (head[1] in wanted) print }' "$top/crates.txt" | LC_ALL=C sort
        cat "$top/HANDLES"
        (cd "$top/crates" && find $names -name out -prune -o -name must-fail -prune -o -name more-edits -prune -o -type f -print0 | LC_ALL=C sort -z | xargs -0 sha256sum)
    } | sha256sum | cut -d' ' -f1
}

# Where a proved program lies, and the sum that it was built from.
program_file() { printf '%s\n' "$top/crates/$1/out/$1"; }
sum_file() { printf '%s\n' "$top/crates/$1/out/$1.sum"; }

# Whether the program was proved and built from the sources as they are.
is_proved() {
    [ -x "$(program_file "$1")" ] && [ -f "$(sum_file "$1")" ] && [ "$(cat "$(sum_file "$1")")" = "$(sum_of "$1")" ]
}

# How rt words what it says: a pattern, for grep -E, of the lines that say WHAT, perhaps of one crate. rt_says WHAT [CRATE]
rt_says() {
    local crate=${2:-[a-z0-9_]+}
    case $1 in
        proved) printf '%s\n' "^rt: $crate (proved|is kept)" ;;
        done) printf '%s\n' "^rt: $crate (proved|NOT PROVED|is kept)" ;;
        tried) printf '%s\n' '^(rt: )?must-fail ([a-z_]+/[a-z_0-9]+)\.edit: (refused|NOT REFUSED|NOT TRIED|BAD EDIT)(.*)$' ;;
        refused) printf '%s\n' '^(rt: )?must-fail .*: refused' ;;
        ended) printf '%s\n' '^run=ended status=([0-9]+) .*proved=no$' ;;
        beside) printf '%s\n' '^(interpreted|checked|races): |^run=|^rt: ' ;;
    esac
}
