# The device behind standard output is full.
. "$edge/common"
[ -c /dev/full ] || skip "there is no /dev/full"
make_workspace
"$program" ws dump >/dev/full 2>err </dev/null
ended 4 $? "dump"
said "standard output: No space left on device" "" "dump"
"$program" ws play <second >/dev/full 2>err
ended 4 $? "play"
said "standard output: No space left on device" "" "play"
unchanged "play"
