# Two processes on one workspace: one works, the other ends with 5 and changes nothing.
. "$edge/common"
make_workspace
mkfifo in answers || fail "no pipe"
"$program" ws play <in >answers 2>first.err &
first=$!
exec 3>in 4<answers
printf 'b: AW ATTACH MULTI\nb: ACQUIRE v\nb: v = 8\nb: UPDATE\n' >&3
for line in 1 2 3 4; do
    read -r answer <&4
    [ "$answer" = "b: ok" ] || fail "the first process answered: $answer"
done
for command in play new dump; do
    "$program" ws $command <second >out 2>err
    ended 5 $? "$command beside another process"
    has out "" "$command beside another process"
    said "ws: " "in use by another process" "$command beside another process"
    unchanged "$command beside another process"
done
printf 'b: COMMIT\n' >&3
read -r answer <&4
[ "$answer" = "b: ok" ] || fail "the first process answered: $answer"
exec 3>&- 4<&-
wait $first
ended 0 $? "the first process"
"$program" ws dump >out 2>err </dev/null
ended 0 $? "dump, once the first process has ended"
has out "v 3 1\n  = 8\n" "dump, once the first process has ended"
