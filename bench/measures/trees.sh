# Measures trees, in comparison with `bench/rowan_like.rs` and `bench/bare_rows.rs`, and prints a table.
#
# usage: bench/run trees [ROUNDS]
#
# Builds the programs, and runs `benches trees` and the others in turn, ROUNDS times (5). A row has the operation, the tree, the number of
# elements, the nanoseconds per element of both programs, and their ratio, which is below 1 if the proved tree is faster; for a walk
# also the nanoseconds of a bare loop over the same rows and the ratio to it, and the same for that loop with a reference count that is
# incremented and decremented at each step. Times are the minimum of all runs. It fails if the programs do not count as many elements with
# the same sum. Without `rustc` the columns of the other programs are empty.
case ${1-} in
    --help | -h) sed -n '1,/^[^#]/s/^# \{0,1\}//p' "$0"; exit 0 ;;
esac
here=$(cd "$(dirname "$0")" && pwd) || exit 3
rounds=${1:-5}
built=$(mktemp -d) || exit 3
trap 'rm -rf "$built"' EXIT

program=$("$here/../../tools/built" benches) || exit 3
cp "$program" "$built/ours" || exit 3
for program in rowan_like bare_rows; do
    if ! rustc --edition 2021 -O -o "$built/$program" "$here/../$program.rs"; then
        echo "bench/run trees: $program was not built" >&2
    fi
done

: >"$built/ours.lines"
: >"$built/rowan_like.lines"
: >"$built/bare_rows.lines"
: >"$built/counted.lines"
round=0
while [ "$round" -lt "$rounds" ]; do
    "$built/ours" trees >>"$built/ours.lines" || exit 3
    for program in rowan_like bare_rows; do
        if [ -x "$built/$program" ]; then
            "$built/$program" >>"$built/$program.lines" || exit 3
        fi
    done
    if [ -x "$built/bare_rows" ]; then
        "$built/bare_rows" counted >>"$built/counted.lines" || exit 3
    fi
    round=$((round + 1))
done

# A line is: operation, tree, elements, nanoseconds, sum.
awk '
    FILENAME != last { file++; last = FILENAME }
    {
        key = $1 " " $2
        if (file == 1 && !(key in elements)) { order[++count] = key; elements[key] = $3; sum[key] = $5 }
        if ($3 != elements[key] || $5 != sum[key]) { print "bench/run trees: " key " differs" | "cat >&2"; failed = 1 }
        if (!((file, key) in least) || $4 < least[file, key]) least[file, key] = $4
    }
    function columns(file, key) {
        if (!((file, key) in least)) return " | |"
        return sprintf(" %.2f | %.2f |", least[file, key] / elements[key], least[1, key] / least[file, key])
    }
    END {
        print "| operation | tree | elements | `lossless_tree`, ns an element | `rowan_like`, ns | ratio " \
            "| bare rows, ns | ratio | counted, ns | ratio |"
        print "|---|---|---:|---:|---:|---:|---:|---:|---:|---:|"
        for (i = 1; i <= count; i++) {
            key = order[i]
            split(key, name, " ")
            printf "| `%s` | %s | %s | %.2f |%s%s%s\n", name[1], name[2], elements[key], least[1, key] / elements[key],
                columns(2, key), columns(3, key), columns(4, key)
        }
        exit failed
    }
' "$built/ours.lines" "$built/rowan_like.lines" "$built/bare_rows.lines" "$built/counted.lines"
