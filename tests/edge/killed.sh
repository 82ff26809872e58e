# A process that is killed in mid-run: what was answered ok is there, and the workspace isn't locked.
. "$edge/common"
make_workspace
mkfifo in answers || fail "no pipe"
"$program" ws play <in >answers 2>first.err &
first=$!
exec 3>in 4<answers
printf '%sb: v = 9\nb: UPDATE\n' "$second_course" >&3
for line in 1 2 3 4 5 6 7; do
    read -r answer <&4
    [ "$answer" = "b: ok" ] || fail "the process answered: $answer"
done
kill -9 $first
wait $first 2>/dev/null
exec 3>&- 4<&-
"$program" ws dump >out 2>err </dev/null
ended 0 $? "dump"
has out "v 3 1\n  = 8\n" "dump"
