# How an edit of crates/NAME/must-fail is carried out: for tools/must-fail and tools/mistakes, which read this file.

# In FILE, puts NEW for OLD, which must stand there exactly once.
replace() { # FILE OLD NEW
    OLD=$2 NEW=$3 awk '
        { body = body $0 "\n" }
        END {
            from = index(body, ENVIRON["OLD"])
            if (ENVIRON["OLD"] == "" || from == 0) exit 1
            behind = from + length(ENVIRON["OLD"])
            if (index(substr(body, behind), ENVIRON["OLD"]) != 0) exit 1
            printf "%s", substr(body, 1, from - 1) ENVIRON["NEW"] substr(body, behind)
        }' "$1" >"$1.new" && mv "$1.new" "$1"
}

# The edit's own proof, if it has one.
own_proof() { # EDIT
    echo "${1%/must-fail/*}/edit-proofs/$(basename "$1" .edit).answers"
}

# Carries out EDIT in the crate folder HERE. With `src` behind, only what it changes in the code.
carry_out() { # EDIT HERE [src]
    file='' old='' pairs=0
    while IFS= read -r line; do
        case $line in
        '# proof: '*) file=${line#'# proof: '}; [ -f "$2/$file" ] && cp "$(own_proof "$1")" "$2/$file" || return 1 ;;
        'file: '*) file=${line#file: } ;;
        'old: '*) old=${line#old: } ;;
        'new: '*)
            case ${3:-}:$file in src:src/* | :*) replace "$2/$file" "$old" "${line#new: }" || return 1 ;; esac
            pairs=$((pairs + 1))
            ;;
        esac
    done <"$1"
    [ "$pairs" -gt 0 ]
}
