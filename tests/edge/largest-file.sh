# The workspace can't grow any more in mid-run, since a file may have no more than 4,096 bytes: each
# commit from there on is refused with 30, and all that were answered ok are there.
. "$edge/common"
"$program" ws new >out 2>err || fail "new ended with status $?"
echo 'DEFINE v VARIABLE INTEGER' | "$program" ws play >out 2>err || fail "play ended with status $?"
many_commits 300 >script
((trap '' XFSZ; ulimit -f 8; exec "$program" ws play <script 2>err); echo $? >status) | cat >out
ended 1 "$(cat status)" "play"
acknowledged_are_there "play"
# With room again, a run goes on from there.
printf 'b: AW ATTACH MULTI\nb: ACQUIRE v\nb: v = 1000\nb: UPDATE\nb: COMMIT\n' | "$program" ws play >out 2>err
ended 0 $? "play with room"
"$program" ws dump >out 2>err </dev/null
has out "v $((done + 2)) 1\n  = 1000\n" "dump"
# Nor can a workspace be made where no byte may be written.
((trap '' XFSZ; ulimit -f 0; exec "$program" none new 2>&1 </dev/null); echo $? >status) | cat >err
ended 5 "$(cat status)" "new"
said "none: File too large" "" "new"
