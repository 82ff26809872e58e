# Calls that name no workspace, and words that are no command.
. "$edge/common"
usage='usage: play, new, dump, make N\n'
"$program" >out 2>err </dev/null
ended 2 $? "no words"
has out "$usage" "no words"
"$program" ws >out 2>err </dev/null
ended 2 $? "a path alone"
has out "$usage" "a path alone"
"$program" "$(printf 'w\377s')" new >out 2>err </dev/null
ended 2 $? "a path that isn't UTF-8"
has out "$usage" "a path that isn't UTF-8"
"$program" --help >out 2>err </dev/null
ended 0 $? "--help"
grep -q '^olapdml PATH new$' out || fail "--help: $(cat out)"
# It tells the same refusals and statuses as the page of the language.
page="$edge/../../docs/LANGUAGE.md"
sed -n '/^| number | cause/,/^$/s/^| \([0-9]*\) |.*/\1/p' "$page" >wanted
sed -n '/^A refused line/,/^It ends/s/^ *\([0-9][0-9]*\)  .*/\1/p' out >told
cmp -s told wanted || fail "--help: refusals $(cat told), not $(cat wanted)"
sed -n '/^| status | when/,/^$/s/^| \([0-9]*\) |.*/\1/p' "$page" >wanted
sed '1,/^It ends/d' out | grep -oE '(^|  ) *[0-9]+  ' | tr -d ' ' | sort -n >told
cmp -s told wanted || fail "--help: statuses $(cat told), not $(cat wanted)"
"$program" --version >out 2>err </dev/null
ended 0 $? "--version"
grep -q '^olapdml [0-9.]*$' out || fail "--version: $(cat out)"
has err "" "--version"
