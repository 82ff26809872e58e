# A statement may write 4,194,304 cells, and no more. It ends in seconds, also where the last cell of
# all is at fault; then none is written.
. "$edge/common"
"$program" ws new >out 2>err || fail "new ended with status $?"
sixteen="'0' '1' '2' '3' '4' '5' '6' '7' '8' '9' 'a' 'b' 'c' 'd' 'e' 'f'"
sixty_four=$(awk 'BEGIN { for (n = 0; n < 64; n++) printf "'\''%02d'\'' ", n }')
cat >script <<END
DEFINE g DIMENSION TEXT
DEFINE h DIMENSION TEXT
DEFINE i DIMENSION TEXT
DEFINE j DIMENSION TEXT
DEFINE k DIMENSION TEXT
DEFINE v VARIABLE INTEGER <g h i j k>
a: AW ATTACH MULTI
a: ACQUIRE g h i j k
a: MAINTAIN g ADD $sixteen
a: MAINTAIN h ADD $sixteen
a: MAINTAIN i ADD $sixteen
a: MAINTAIN j ADD $sixteen
a: MAINTAIN k ADD $sixty_four
a: v = 1
a: SHOW v
a: SHOW v(g 'f', h 'f', i 'f', j 'f', k '63')
a: v = v + (IF g EQ 'f' AND h EQ 'f' AND i EQ 'f' AND j EQ 'f' AND k EQ '63' THEN 2147483647 ELSE 1)
a: SHOW v
a: MAINTAIN k ADD '64'
a: v = 2
a: v(k '64') = 2
a: SHOW v
END
"$program" ws play <script >out 2>err
ended 1 $? "play"
has out "a: ok\na: ok\na: ok\na: ok\na: ok\na: ok\na: ok\na: ok\na: 1\na: 1\na: ERROR 9\na: 1\na: ok\na: ERROR 14\na: ERROR 22 v\na: 1\n" "play"
has err "" "play"
