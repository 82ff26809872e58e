# A workspace is made where no file is, also in another folder and behind a link.
. "$edge/common"
mkdir folder other
ln -s ../other/linked folder/link
for path in ws folder/ws folder/link "$(pwd)/whole" './a name with blanks'; do
    "$program" "$path" new >out 2>err </dev/null
    ended 0 $? "new of $path"
    has out "ok\n" "new of $path"
    has err "" "new of $path"
    "$program" "$path" new >out 2>err </dev/null
    ended 9 $? "new of $path, again"
done
[ -f other/linked ] && [ -L folder/link ] || fail "the link's file wasn't made"
"$program" absent dump >out 2>err </dev/null
ended 7 $? "dump of no file"
has out "NOT A WORKSPACE\n" "dump of no file"
