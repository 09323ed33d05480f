#!/usr/bin/env bash
# Compares the machine with a plain interpreter in Rust on the same lane code, by hand:
#
#   tools/bench.sh
#
# Builds crates/vk_bench, proved, and tools/bench_plain.rs by rustc -O, runs both on the same work, and prints for each how many
# instructions it performed a second (each in all its lanes), and how many times as long the machine took.
set -eu
top=$(cd "$(dirname "$0")/.." && pwd)
program="$top/crates/vk_bench/out/vk_bench"
plain=$(mktemp)
trap 'rm -f "$plain"' EXIT
[ -x "$program" ] || (cd "$top/crates/vk_bench" && rt run) >/dev/null
rustc -O -o "$plain" "$top/tools/bench_plain.rs"

# Seconds that a program takes on a work.
seconds() {
    local start end
    start=$(date +%s.%N)
    "$@" >/dev/null
    end=$(date +%s.%N)
    echo "$end - $start" | bc
}

# Instructions of a chunk of each work.
instructions() {
    case "$1" in
    add) echo 69 ;;
    masked) echo 55 ;;
    calls) echo 12 ;;
    esac
}

printf '%-8s %5s %8s %14s %14s %6s\n' work lanes chunks machine/s plain/s times
for work in add masked calls; do
    for lanes in 4 8 64 256; do
        chunks=$((8000000 / lanes / 10))
        if [ "$("$program" $work $lanes $chunks)" != "$("$plain" $work $lanes $chunks)" ]; then
            echo "bench: $work $lanes: different sums" >&2
            exit 1
        fi
        ours=$(seconds "$program" $work $lanes $chunks)
        theirs=$(seconds "$plain" $work $lanes $chunks)
        total=$((chunks * $(instructions $work)))
        printf '%-8s %5d %8d %14.0f %14.0f %6.2f\n' $work $lanes $chunks \
            "$(echo "$total / $ours" | bc -l)" "$(echo "$total / $theirs" | bc -l)" "$(echo "$ours / $theirs" | bc -l)"
    done
done
