# PATH is a device that is always full: neither a sync nor a write of the workspace succeeds, and each
# is told.
. "$edge/common"
[ -c /dev/full ] || skip "there is no /dev/full"
for command in play dump; do
    "$program" /dev/full $command >out 2>err </dev/null
    ended 5 $? "$command, whose sync fails"
    has out "" "$command, whose sync fails"
    said "/dev/full: Invalid argument" "" "$command, whose sync fails"
done
"$program" /dev/full new >out 2>err </dev/null
ended 5 $? "new, whose write fails"
has out "" "new, whose write fails"
said "/dev/full: No space left on device" "" "new, whose write fails"
