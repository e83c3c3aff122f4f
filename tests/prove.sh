#!/usr/bin/env bash
# Proves a crate and those that it stands on, and makes of it an archive for C or a program; tells on standard error how far it is.
# Usage: tests/prove.sh archive|program NAME, in the folder that has crates.txt. What rt says is shown whole where it fails, and the exit status is then rt's.
#
# An archive, target/staticlib/libNAME.a, is what `rt lib` makes, for every x86-64 processor. A program, target/bin/NAME, is what `rt run` makes, once it has written its crate's stdout.
# rt proves again only what has changed. What was made of the very same sources by the same toolchain is not made again: libNAME.made and NAME.made have the sum of these and of the file.
#
# `tests/prove.sh passed` says that `rt ci` has just proved the sources as they stand, and that crates/*/out has what it made of them. As long as both are as they were then, an archive is
# made over these libraries, for which only the crate NAME is proved again, and a program is the one that rt ci built and ran.
set -euo pipefail
verb="$1" name="${2-}"
command -v rt > /dev/null || { echo "prove.sh: the Rattle toolchain (rt) is not on the PATH" >&2; exit 1; }
toolchain="$(rt version)"

# The crates of crates.txt, and what each stands on; of these those that NAME is made of.
declare -A on=()
while IFS=: read -r crate below; do on[${crate%% *}]="$below"; done < <(sed 's/#.*//; /:/!d' crates.txt)
crates=()
collect() { # CRATE: it and what it stands on, lowest first
    local below
    case " ${crates[*]} " in *" $1 "*) return ;; esac
    for below in ${on[$1]-}; do [ -z "${on[$below]+listed}" ] || collect "$below"; done
    crates+=("$1")
}

# The sum of what a crate is made of, and of the files that are named besides, where they are there.
sum_of() { # CRATE [FILE..]
    {
        echo "$toolchain"
        echo "$1:${on[$1]}"
        find "crates/$1" \( -path '*/must-fail' -o -path '*/out' \) -prune -o -type f -print0 | sort -z | xargs -0 sha256sum
        for file in "${@:2}"; do [ ! -f "$file" ] || sha256sum "$file"; done
    } | sha256sum
}

# The same with the library or the program that stands in the crate's out/.
sum_as_left() { # CRATE
    sum_of "$1" "crates/$1/out/rlib/$1.rlib/format" "crates/$1/out/$1"
}

passed=target/passed
if [ "$verb" = passed ]; then
    mkdir -p "$passed"
    for crate in "${!on[@]}"; do sum_as_left "$crate" > "$passed/$crate"; done
    exit
fi
[ -n "${on[$name]+listed}" ] || { echo "prove.sh: crates.txt has no $name" >&2; exit 2; }
collect "$name"
folder="crates/$name"
case "$verb" in
    archive) made="target/staticlib/lib$name.a" left="$folder/out/lib$name.a" ;;
    program) made="target/bin/$name" left="$folder/out/$name" ;;
    *) echo "prove.sh: $verb is neither archive nor program" >&2; exit 2 ;;
esac
mkdir -p "$(dirname "$made")"

sum() {
    for crate in "${crates[@]}"; do sum_of "$crate"; done
    sha256sum "$made"
}
if [ -f "$made" ] && [ "$(sum)" = "$(cat "${made%.a}.made" 2> /dev/null)" ]; then
    exit
fi

# Whether rt ci has proved NAME and what it stands on, and what it made of them is there.
has_passed() {
    local crate
    for crate in "${crates[@]}"; do
        [ "$(sum_as_left "$crate")" = "$(cat "$passed/$crate" 2> /dev/null)" ] || return
        [ "$crate" = "$name" ] || [ -f "crates/$crate/out/rlib/$crate.rlib/format" ] || return
    done
    [ "$verb" = archive ] || [ -x "$left" ]
}

run() {
    case "$how" in
        archive) cd "$folder" && rt lib --cpu x86-64 ;;
        program) cd "$folder" && mkdir -p out && rt run < stdin 2>&1 > out/stdout && cmp out/stdout stdout ;;
        'archive passed') tests/module.sh "$name" target/staticlib ;;
        'program passed') true ;;
    esac
}

# Reads what rt prints, and tells of each crate that it takes on.
tell() {
    local line n
    while IFS= read -r line; do
        [[ $line =~ ^rt:\ chose\ --jobs\ [0-9]+\ for\ ([A-Za-z0-9_]+)$ ]] || continue
        for n in "${!crates[@]}"; do
            [ "${crates[n]}" != "${BASH_REMATCH[1]}" ] || echo "$((n + 1)) of ${#crates[@]}: ${crates[n]}" >&2
        done
    done
}

how="$verb"
if has_passed; then how="$verb passed"; fi
log="$(mktemp)"
trap 'rm -f "$log"' EXIT
echo "proving $name and the $((${#crates[@]} - 1)) crates that it stands on; what is proved already is not proved again" >&2
set +e
(run) 2>&1 | tee "$log" | tell
status=${PIPESTATUS[0]}
set -e
if [ "$status" -ne 0 ]; then
    cat "$log" >&2
    exit "$status"
fi
[ "$how" = 'archive passed' ] || cp "$left" "$made"
sum > "${made%.a}.made"
