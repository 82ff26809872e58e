# Standard output is closed: writing fails, and nothing is written over the workspace.
. "$edge/common"
make_workspace
"$program" ws play <second 2>err >&-
ended 4 $? "play"
said "standard output: " "" "play"
unchanged "play"
"$program" ws dump 2>err </dev/null >&-
ended 4 $? "dump"
said "standard output: " "" "dump"
unchanged "dump"
"$program" ws play <second >&- 2>&-
ended 4 $? "play, with standard error closed too"
unchanged "play, with standard error closed too"
"$program" ws dump <&- >&- 2>&-
ended 4 $? "dump, with all three closed"
unchanged "dump, with all three closed"
"$program" --version </dev/null 2>err >&-
ended 4 $? "--version"
said "standard output: " "" "--version"
