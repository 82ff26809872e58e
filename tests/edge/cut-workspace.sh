# A workspace of two records that is cut to each of its lengths.
. "$edge/common"
make_workspace
length=0
while [ $length -lt 45 ]; do
    head -c $length kept >ws
    cp ws cut
    "$program" ws dump >out 2>err </dev/null
    status=$?
    if [ $length -lt 9 ]; then
        ended 7 $status "dump of $length bytes"
        has out "NOT A WORKSPACE\n" "dump of $length bytes"
    else
        ended 8 $status "dump of $length bytes"
        gate=22
        [ $length -gt 22 ] || gate=8
        has out "DAMAGED $gate\n" "dump of $length bytes"
    fi
    cmp -s ws cut || fail "dump of $length bytes: they have changed"
    length=$((length + 1))
done
