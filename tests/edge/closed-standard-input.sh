# Standard input is closed: the script can't be read, and the workspace isn't read in its place.
. "$edge/common"
make_workspace
"$program" ws play >out 2>err <&-
ended 3 $? "play"
has out "" "play"
said "standard input: " "" "play"
unchanged "play"
"$program" ws play >out <&- 2>&-
ended 3 $? "play, with standard error closed too"
has out "" "play, with standard error closed too"
unchanged "play, with standard error closed too"
"$program" ws dump >out 2>err <&-
ended 0 $? "dump"
has out "v 2 1\n  = 7\n" "dump"
unchanged "dump"
