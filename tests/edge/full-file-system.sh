# The file system is full in mid-run: each commit from there on is refused with 30, and all that were
# answered ok are there.
. "$edge/common"
if [ -z "${inside:-}" ]; then
    mkdir small
    unshare -m true 2>/dev/null || skip "no file system can be mounted here"
    inside=yes
    export inside
    exec unshare -m sh -u "$0"
fi
mount -t tmpfs -o size=16k none small 2>/dev/null || skip "no file system can be mounted here"
cd small || fail "no folder"
printf %4096s '' >filler
"$program" ws new >../out 2>../err || fail "new ended with status $?"
echo 'DEFINE v VARIABLE INTEGER' | "$program" ws play >../out 2>../err || fail "play ended with status $?"
many_commits 600 | "$program" ws play >../out 2>../err
status=$?
cd ..
ln -s small/ws ws
ended 1 $status "play"
acknowledged_are_there "play"
rm small/filler
printf 'b: AW ATTACH MULTI\nb: ACQUIRE v\nb: v = 1000\nb: UPDATE\nb: COMMIT\n' | "$program" ws play >out 2>err
ended 0 $? "play with room"
"$program" ws dump >out 2>err </dev/null
has out "v $((done + 2)) 1\n  = 1000\n" "dump"
# A file can be made on a full file system, but nothing can be written to it.
cat /dev/zero >small/filler 2>/dev/null
: >small/none
"$program" small/none new >out 2>err </dev/null
ended 5 $? "new"
has out "" "new"
said "small/none: No space left on device" "" "new"
