# PATH is a folder, stands in none, or in a file: it can't be opened.
. "$edge/common"
mkdir folder
for command in new play dump; do
    "$program" folder $command >out 2>err </dev/null
    ended 5 $? "$command of a folder"
    has out "" "$command of a folder"
    said "folder: Is a directory" "" "$command of a folder"
    "$program" no/ws $command >out 2>err </dev/null
    ended 5 $? "$command in no folder"
    has out "" "$command in no folder"
    said "no/ws: No such file or directory" "" "$command in no folder"
done
[ -z "$(ls folder)" ] || fail "something was made in the folder"
