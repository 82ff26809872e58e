# Standard error is closed: a run is as ever, and its complaints aren't written over the workspace.
. "$edge/common"
make_workspace
printf 'a: AW ATTACH MULTI\na: SHOW v\n' >script
"$program" ws play <script >out 2>&-
ended 0 $? "play"
has out "a: ok\na: 7\n" "play"
unchanged "play"
"$program" ws play <script 2>&- >/dev/full
ended 4 $? "play to a full device"
unchanged "play to a full device"
"$program" ws play <second >out 2>&-
ended 0 $? "play of a commit"
"$program" ws dump >out 2>&-
has out "v 3 1\n  = 8\n" "dump"
