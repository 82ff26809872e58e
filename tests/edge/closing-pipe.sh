# Who reads the transcript goes away: the run ends, and what was answered ok until then is there.
. "$edge/common"
make_workspace
(printf 'a: AW ATTACH MULTI\n'; awk 'BEGIN { for (n = 0; n < 100000; n++) print "a: SHOW v" }') >script
("$program" ws play <script 2>err; echo $? >status) | head -n 1 >out
has out "a: ok\n" "play"
ended 4 "$(cat status)" "play"
said "standard output: Broken pipe" "" "play"
unchanged "play"
