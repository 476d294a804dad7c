# shellcheck shell=sh disable=SC2034,SC2154
# What the tests on stored tables share. A test sets `test` to its name and `work` to a folder of its own before it takes this in.

# write_bytes BYTE...: the bytes, each in hexadecimal
write_bytes() {
    # shellcheck disable=SC2046
    [ $# -eq 0 ] || printf %b "$(printf '\\0%03o' $(printf '0x%s ' "$@"))"
}
# trickle FILE: its bytes, one at a time
trickle() {
    for i in $(seq "$(wc -c <"$1")"); do
        tail -c +"$i" "$1" | head -c 1
        sleep 0.01
    done
}

# The files of tables with what chart prints for each.
charts='tests/chart.txt tests/soft.txt tests/forms.txt tests/bigger.txt tests/merged.txt'
# The tables of stored lines, and what stands behind them.
tables() { sed -e '/^#/d' -e '/^$/d' -e 's/ -> .*//' "$@"; }
results() { sed -e '/^#/d' -e '/^$/d' -e 's/.* -> //' "$@"; }

# The limits of a table, and those of version 1.3: stored tables within these must read as before.
max_steps=96
max_edges=288
old_steps=64
old_edges=192
# The most points of a chart that has x and strokes.
max_xs=128
# The bytes of the longest table, and of the same with each number in three bytes. Names have 16.
max_shortest=$((1 + 1 + max_steps * (1 + 2 + 1 + 16) + 2 + max_edges * (1 + 1 + 1 + 2 + 1)))
max_stored=$((3 + 3 + max_steps * (3 * 3 + 16) + 3 + max_edges * (5 * 3)))

# short NUMBER, long NUMBER: a number below 16,384 in its fewest bytes, and in three
short() {
    if [ "$1" -lt 128 ]; then printf %02X "$1"; else printf '%02X %02X' $(($1 % 128 + 128)) $(($1 / 128)); fi
}
long() { printf '%02X %02X 00' $(($1 % 128 + 128)) $(($1 / 128 + 128)); }
# repeat NUMBER BYTES: the bytes so many times, a blank before each
repeat() {
    awk -v left="$1" -v bytes="$2" 'BEGIN { for (; left > 0; left--) printf " %s", bytes }'
}
# make_edges FORM NUMBER: two steps and that many must edges in edition 2, their number in a form that is `short` or `long`
make_edges() {
    steps='02 00 01 41 00 01 42'
    echo "02 $steps $("$1" "$2")$(repeat "$2" '00 01 01 01 00') -> writes 01 $steps $(short "$2")$(repeat "$2" '00 01 01 01')"
}
# make_steps STEPS, make_chain STEPS: checks of one name; and must edges with gap 4 from each of so many steps to the next; a blank first
make_steps() { repeat "$1" '00 01 41'; }
make_chain() { awk -v steps="$1" 'BEGIN { for (i = 1; i < steps; i++) printf " %02X %02X 04 01", i - 1, i }'; }
# make_beside LINES: the longest chain, and from its first step to its last one or two lines, a must one and a soft one. With one there are
# more points than may have an x, with two more than a chart may have
make_beside() {
    links=$((max_steps - 1)) last=$(printf %02X $((max_steps - 1)))
    printf '02 %s%s %s' "$(short "$max_steps")" "$(make_steps "$max_steps")" "$(short $((links + $1)))"
    make_chain "$max_steps" | sed 's/ \(.. ..\) 04 01/ \1 04 01 00/g'
    [ "$1" -eq 1 ] || printf ' 00 %s 04 01 01' "$last"
    echo " 00 $last 04 01 00 -> refused $([ "$1" -eq 1 ] && echo 16 || echo 12)"
}
# make_longest STEPS EDGES, make_longest_forms STEPS EDGES: the longest table of so many, and the same with each number in three bytes
name='41 42 43 44 45 46 47 48 49 4A 4B 4C 4D 4E 4F 50'
make_longest() {
    echo "02 $(short "$1")$(repeat "$1" "01 8F 4E 10 $name") $(short "$2")$(repeat "$2" "00 $(short $(($1 - 1))) 04 FF 01 01")"
}
make_longest_forms() {
    printf '82 80 00 %s%s' "$(long "$1")" "$(repeat "$1" "81 80 00 8F CE 00 90 80 00 $name")"
    echo " $(long "$2")$(repeat "$2" "80 80 00 $(long $(($1 - 1))) 84 80 00 FF 81 00 81 80 00")"
}
# number_of FILE NUMBER: ends the test where the file has another number of bytes
number_of() {
    [ "$(wc -c <"$1")" -eq "$2" ] || { echo "$test: a file of $(wc -c <"$1") bytes that should have $2"; exit 1; }
}

# same WHAT FILE FILE: ends the test where the files differ
same() {
    diff "$2" "$3" >"$work/difference" || { echo "$test: $1"; cut -c 1-200 "$work/difference"; exit 1; }
}
# store FILE...: the tables of the files, for the functions below
store() {
    tables "$@" >"$work/tables"
    results "$@" >"$work/results"
}
# as_stored WHO COMMAND...: what the command gives for the stored tables is what stands behind them. A test may say in other words what is done
# with a table that is not refused.
did=written
as_stored() {
    who=$1
    shift
    "$@" <"$work/tables" >"$work/given"
    same "$who (>) does not give what is stored (<)" "$work/results" "$work/given"
    echo "$test: $(wc -l <"$work/tables") tables, each $did or refused by $who as expected"
}
# build_program SOURCE PROGRAM: makes a program that calls the library
build_program() { cc -std=c99 -O1 -g -Wall -Wextra -pedantic -Werror -Iinclude "$1" target/staticlib/libhost.a -o "$2"; }
# build_library: makes $work/library, which gives what a call of the library makes of the tables on its standard input. Its header has the
# limits named above.
build_library() {
    build_program tests/writing.c "$work/library"
    [ "$("$work/library" limits)" = "$max_steps $max_edges $max_shortest $max_stored" ] ||
        { echo "$test: the header has other limits than tests/stored.sh: $("$work/library" limits)"; exit 1; }
}
# its_own CALL: what the call wrote of the tables of $work/all, in $work/library.given, it makes again of itself
its_own() {
    sed -n 's/^writes //p' "$work/library.given" >"$work/shortest"
    "$work/library" "$1" <"$work/shortest" | sed 's/^writes //' >"$work/again"
    same "what was written (<) is written in another way (>)" "$work/shortest" "$work/again"
    echo "$test: $(wc -l <"$work/shortest") tables written, each its own shortest form"
}
# row_sizes: of the results of charts what is known of their points: how many there are in each row, or the refusal
row_sizes() {
    awk '/^refused/ { print; next }
        {
            rows = split($0, row, " / ")
            printf "points"
            for (i = 2; i <= rows; i++) printf " %d", split(row[i], field, " ") - 1
            print ""
        }'
}
# behind_tables: the stored tables, each with a line of standard input behind it
behind_tables() { paste -d '@' "$work/tables" - | sed 's/@/ -> /'; }
# known_charts: makes $work/known, every table that tests/chart reads from a file with what is known of its points
known_charts() {
    # shellcheck disable=SC2086
    store $charts
    row_sizes <"$work/results" | behind_tables >"$work/known"
}
