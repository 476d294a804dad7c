# shellcheck shell=sh disable=SC2154
# The order of one row, for tests/example, whose functions and tables are used: the orders that the program finds, with the drawings that have
# them; the rows, tries and arguments that it turns down.

# order NAME ROW [TRIES]: what is found for a row of the table NAME, behind what the runs before found; and the picture, which has the row in
# this order, and is as without the option where that is the present one
order() {
    show "$1" order.svg --row "$2" ${3:+--tries "$3"} >order.run
    grep -q -x 'status 0' order.run || { echo "example: $1: no order of row $2"; cat order.run; exit 1; }
    cat order.run >>"$1.order.got"
    "$root/tests/picture" "$1.txt" order.svg "$1.got" order.run
    crossings=$(sed -n 's/^of the chart .* //p' order.run)
    grep -q "crossings $crossings</title>" order.svg || { echo "example: $1: another number of crossings is written on the picture"; exit 1; }
    checks=$((checks + 2))
    if grep -q '^The present order' order.run; then
        cmp "$1.svg" order.svg
        checks=$((checks + 1))
    fi
}

# no order of row 2 meets its floor: only all 720 show which is the best, and fewer tries find better ones on the way
cat >unmet.txt <<'END'
step a check
step b check
step c check
step d check
step e check
step f check
step g check
step h check
step i check
step j check
step k check
step l check
step m check
step n check
edge h l
edge g l
edge h d
edge i e
edge b l
edge b k
edge h i
edge c g
edge n d
edge h g
edge c f
edge n j
edge m g
edge c j
edge m a
edge c i
edge c n
edge n a
edge k f
edge c a
END
chart unmet
for tries in 0 1 718 719; do order unmet 2 $tries; done
# the fewest crossings above, but one more below; not found in one try; one that crosses as often as its floor; the last row
order analyser 5
order analyser 5 1
order analyser 9 0
order analyser 10
order trims 3
order wideband 25
for name in unmet analyser trims wideband; do same $name.order; done
# the first row again in a chart that is too large for x, beside a chain
{ chain 32; cat unmet.txt; } >beside.txt
"$root/tools/table" write beside.txt beside
"$host" beside beside.svg >beside.got
order beside 2
sed '/^row  chart$/,$d' beside.order.got >beside.got
same beside

# as many points and tries as there may be, and what is refused: row 0, the first that is not there, one of a point too many, any of a chart
# without rows, a number that would be a row if it were cut to 64 bits; the row before the tries; too many tries. There is no picture then, but
# a shortest form.
most_points=$(limit ROW_POINTS) most_tries=$(limit TRIES)
for points in "$most_points" $((most_points + 1)); do
    { echo 'step top check'; for i in $(seq "$points"); do echo "step s$i check"; echo "edge top s$i"; done; } >wide.txt
    "$root/tools/table" write wide.txt "wide$points"
done
cut=18446744073709551617
{
    show "wide$most_points" --row 1 --tries "$most_tries"
    show analyser refused.svg order.shortest --row 0
    show analyser refused.svg --row 11
    show "wide$((most_points + 1))" refused.svg --row 1
    show empty refused.svg --row 1
    show analyser refused.svg --row $cut
    show analyser refused.svg --row 0 --tries $((most_tries + 1))
    show analyser refused.svg --row 5 --tries $((most_tries + 1))
    show analyser refused.svg --row 5 --tries $cut
} >order.got
same order
cmp analyser order.shortest
# what the table is refused for comes first
for name in loop points; do
    show $name refused.svg --row 0 >order.run
    sed -n '/^host:/,$p' $name.got | diff - order.run
done
[ ! -e refused.svg ] || { echo 'example: a picture of a refused row'; exit 1; }
checks=$((checks + 4))

# arguments that are none: numbers that are not of digits alone, options without a number, twice, or unknown, and too few files and too many
for number in '' -1 +1 ' 1' 1x 0x1 1.0 --tries; do
    show sample --row "$number"
    show sample --row 1 --tries "$number"
done >usage.got
{
    show --row 1
    show sample --row
    show sample --row 1 --tries
    show sample --tries 1
    show sample --row 1 --row 1
    show sample --row 1 --tries 1 --tries 1
    show sample --rows 1
    show sample sample.svg sample.shortest more --row 1
} >>usage.got
same usage
# options may stand before the files and between them
show analyser order.svg order.shortest --row 5 --tries 7 >order.run
show --tries 7 analyser again.svg --row 5 again.shortest | diff order.run -
cmp order.svg again.svg
cmp order.shortest again.shortest
checks=$((checks + 3))

# another order than the present one, with x and without, and the present one
if command -v valgrind >/dev/null; then
    for run in 'analyser 5' 'beside 2' 'wideband 25'; do
        # shellcheck disable=SC2086
        set -- $run
        "$host" "$1" order.svg --row "$2" >order.run
        valgrind -q --error-exitcode=3 "$host" "$1" again.svg --row "$2" >order.again
        cmp order.run order.again
        cmp order.svg again.svg
        checks=$((checks + 2))
    done
fi
