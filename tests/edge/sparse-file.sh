# A file of 3 GiB without data is no workspace. It is made one and played on in its front alone.
. "$edge/common"
make_workspace
rm ws
dd if=/dev/null of=ws bs=1048576 seek=3072 2>/dev/null || skip "no file of this length can be made here"
size() {
    ls -l ws | awk '{ print $5 }'
}
[ "$(size)" = 3221225472 ] || skip "no file of this length can be made here"
"$program" ws dump >out 2>err </dev/null
ended 7 $? "dump of no workspace"
has out "NOT A WORKSPACE\n" "dump of no workspace"
"$program" ws new >out 2>err </dev/null
ended 0 $? "new"
has out "ok\n" "new"
printf %s "$first_course" | "$program" ws play >out 2>err
ended 0 $? "play"
has out "a: ok\na: ok\na: ok\na: ok\na: ok\n" "play"
[ "$(size)" = 3221225472 ] || fail "the file has $(size) bytes"
head -c 45 ws >front
cmp -s front kept || fail "the front isn't that of a short workspace"
"$program" ws dump >out 2>err </dev/null
ended 0 $? "dump"
has out "v 2 1\n  = 7\n" "dump"
