# A script may have 67,108,864 bytes, and no more.
. "$edge/common"
"$program" ws new >out 2>err || fail "new ended with status $?"
line_ends() {
    head -c "$1" /dev/zero | tr '\000' '\n'
}
line_ends 67108864 | "$program" ws play >out 2>err
ended 0 $? "play of the longest script"
has out "" "play of the longest script"
line_ends 67108865 | "$program" ws play >out 2>err
ended 10 $? "play of one byte more"
has out "" "play of one byte more"
has err "" "play of one byte more"
