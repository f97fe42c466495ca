# Builds the program `benches` and prints a table of what `benches literals` measures: the values of string literals.
#
# usage: bench/run values
#
# They are read as text and as bytes, in MB of the literal per second, beside an iteration over the units of the same content. The
# contents have 10 KB to 10 MB: letters, escapes, raw strings, characters of two and three bytes, continued lines. Times are the minimum of
# a few runs.
case ${1-} in
    --help | -h) sed -n '1,/^[^#]/s/^# \{0,1\}//p' "$0"; exit 0 ;;
esac
here=$(cd "$(dirname "$0")" && pwd) || exit 3
log=$(mktemp) || exit 3
trap 'rm -f "$log"' EXIT

program=$("$here/../../tools/built" benches) || exit 3

# A line is: call, content, bytes, nanoseconds, what was seen.
"$program" literals >"$log" || exit 3
awk '
    { speed[$2 " " $3, $1] = $3 * 1000 / $4 }
    !(($2 " " $3) in known) { known[$2 " " $3]; order[++count] = $2 " " $3 }
    END {
        print "| content | bytes | `string_value`, MB/s | `bytes_value`, MB/s | units alone, MB/s |"
        print "|---|---:|---:|---:|---:|"
        for (i = 1; i <= count; i++) {
            split(order[i], name, " ")
            bytes = (order[i], "bytes_value") in speed ? sprintf("%.0f", speed[order[i], "bytes_value"]) : ""
            printf "| %s | %s | %.0f | %s | %.0f |\n", name[1], name[2],
                speed[order[i], "string_value"], bytes, speed[order[i], "units"]
        }
    }
' "$log"
