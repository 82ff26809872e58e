# A file that may not be written can't be opened, nor can one be made in a folder that may not be written.
. "$edge/common"
make_workspace
as=
if [ "$(id -u)" -eq 0 ]; then
    as="setpriv --reuid=65534 --regid=65534 --clear-groups"
    $as true 2>/dev/null || skip "root may write all files, and setpriv isn't there"
fi
chmod 755 . && chmod 444 ws || fail "no chmod"
for command in new play dump; do
    $as "$program" ws $command >out 2>err <second
    ended 5 $? "$command of a file that may not be written"
    has out "" "$command of a file that may not be written"
    said "ws: Permission denied" "" "$command of a file that may not be written"
    unchanged "$command of a file that may not be written"
done
mkdir shut && chmod 555 shut
$as "$program" shut/ws new >out 2>err </dev/null
ended 5 $? "new in a folder that may not be written"
said "shut/ws: Permission denied" "" "new in a folder that may not be written"
[ ! -e shut/ws ] || fail "a file was made in the folder"
