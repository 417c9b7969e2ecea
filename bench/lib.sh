# shellcheck shell=bash
# shellcheck disable=SC2034
# What the scripts of this folder share. A script sources it and then has `home`, the repository, and `work`, a folder
# of its own that is gone when it ends.

home=$(dirname "$(dirname "$(readlink -f "${BASH_SOURCE[0]}")")")
work=$(mktemp -d) || exit 1
trap 'rm -rf "$work"' EXIT
# The program of GNU time, which tells how much memory another one held.
gnu_time=/usr/bin/time

# build_rust NAME FLAG..: the program of bench/NAME.rs becomes $work/rust.
build_rust() {
    local name=$1
    shift
    rustc --edition 2024 -O "$@" -o "$work/rust" "$home/bench/$name.rs" || exit 1
}

# build_rattle NAME DEPS WORD..: in a copy of the crates stands one more, of the texts in bench/rattle/NAME (each file there
# has .txt behind its name), over the crates DEPS. The toolchain proves and builds it, and runs it on the words, which
# ask for little. Its program is $driver.
build_rattle() {
    local name=$1 deps=$2 text place
    shift 2
    (cd "$home" && tar -cf - --exclude=out crates crates.txt HANDLES) | tar -xf - -C "$work" || exit 1
    echo "bench_$name: $deps" >> "$work/crates.txt"
    while IFS= read -r text; do
        place=$work/crates/bench_$name/${text%.txt}
        mkdir -p "$(dirname "$place")" && cp "$home/bench/rattle/$name/$text" "$place" || exit 1
    done < <(cd "$home/bench/rattle/$name" && find . -type f -name '*.txt')
    (cd "$work/crates/bench_$name" && rt run -- "$@") > "$work/said" 2>&1 || { cat "$work/said" >&2; exit 1; }
    driver=$work/crates/bench_$name/out/bench_$name
}

# in_turn ROUNDS WORD..: runs both programs on the words, one after the other, so many times. What they print stands
# behind each other in $work/rust_said and $work/rattle_said.
in_turn() {
    local rounds=$1 round
    shift
    : > "$work/rust_said"
    : > "$work/rattle_said"
    for ((round = 0; round < rounds; round++)); do
        "$work/rust" "$@" >> "$work/rust_said" || exit 1
        "$driver" "$@" >> "$work/rattle_said" || exit 1
    done
}

# print_names COUNT ITEMS ITEM: lines of name, nanoseconds and sum, of both programs, become a table, of the least time
# under each name. The sums must be the same on both sides.
print_names() {
    awk -v count="$1" -v items="$2" -v item="$3" '
    FNR == NR {
        if (!($1 in rust) || $2 < rust[$1]) rust[$1] = $2
        sum[$1] = $3
        next
    }
    {
        if ($3 != sum[$1]) {
            print "the two differ: " $0 > "/dev/stderr"
            differ = 1
            exit
        }
        if (!($1 in rattle)) names[++num_names] = $1
        if (!($1 in rattle) || $2 < rattle[$1]) rattle[$1] = $2
    }
    END {
        if (differ) exit 1
        printf "%d %s, ns a %s\n%-12s %7s %7s %6s\n", count, items, item, "", "Rattle", "Rust", "ratio"
        for (n = 1; n <= num_names; n++) {
            name = names[n]
            printf "%-12s %7.1f %7.1f %6.2f\n", name, rattle[name] / count, rust[name] / count, rattle[name] / rust[name]
        }
    }' "$work/rust_said" "$work/rattle_said"
}
