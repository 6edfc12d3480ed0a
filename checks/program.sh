#!/bin/sh
# The built program's statuses and messages. It is built where it is missing; skipped where there is no rt for that.
set -eu
top=$(cd "$(dirname "$0")/.." && pwd)
krillc=$(sh "$top/checks/built" krillc --version)
[ -n "$krillc" ] || { echo "checks/program: krillc isn't built, skipped"; exit 0; }
scratch=$(mktemp -d)
trap 'rm -rf "$scratch"' EXIT
cd "$scratch"
failed=0

# What standard error has first where a run finds no signer's pipes.
note="krillc: no signer's pipes stand in krill-data: signatures are a rehearsal's, which no relying party accepts"

# Leaves out of the file `error` that signatures are a rehearsal's.
without_note() {
    grep -vxF "$note" error >error-else || :
    mv error-else error
}

# expect STATUS OUTPUT ERROR WORDS..: runs the program on the file `input`.
expect() {
    status=$1 output=$2 error=$3
    shift 3
    got=0
    "$krillc" "$@" <input >output 2>error || got=$?
    without_note
    printf '%s' "$output" >want-output
    printf '%s' "$error" >want-error
    if [ "$got" != "$status" ] || ! cmp -s output want-output || ! cmp -s error want-error; then
        echo "checks/program: krillc $*: status $got, expected $status"
        failed=1
    fi
}

usage='krillc: usage: krillc run|audit|workload --number N [--rsync URI] [--rrdp URI]
'
: >input
expect 0 'krillc 0.1.0
' '' --version
expect 0 'krillc 0.1.0
' '' run --version
expect 2 '' "$usage" --version run
expect 2 '' "$usage" -h
expect 2 '' "$usage" run --help run
"$krillc" --help >help
grep -q '^usage: krillc run \[--rsync URI\] \[--rrdp URI\]$' help || { echo "checks/program: --help shows no usage"; failed=1; }
rm -r krill-data
expect 0 "$(cat help)
" '' --help
expect 0 "$(cat help)
" '' run --help
expect 0 "$(cat help)
" '' audit --help
expect 0 "$(cat help)
" '' workload --help
# A workload makes a tree, in a new store alone.
expect 0 '{"authorities":1,"commands":4,"objects":70,"origins":64,"serial":1}
{"authorities":1,"commands":5,"objects":70,"origins":64,"serial":2}
' '' workload --number 1
expect 3 '' 'krillc: opening refused: NotEmpty desk 0 held 3
' workload --number=1
rm -r krill-data
for status in 0 2 3 4 5 6; do
    grep -q "^    $status  " help || { echo "checks/program: --help doesn't list status $status"; failed=1; }
done
# The command line that it shows can be copied.
mkdir copied
(
    cd copied
    PATH=$(dirname "$krillc"):$PATH
    eval "$(sed -n 's/^    \(echo .*\)$/\1/p' ../help)"
) >output
[ "$(cat output)" = '{"authority":"ta","count":1,"reply":"accepted"}' ] || {
    echo "checks/program: the command line of --help answers: $(cat output)"
    failed=1
}
[ -e krill-data ] && { echo "checks/program: --help made the store's folder"; failed=1; }
expect 0 '' '' run
# A rehearsal is never silent, and a faulty command line is none.
"$krillc" run <input 2>error
[ "$(cat error)" = "$note" ] || { echo "checks/program: a rehearsal says: $(cat error)"; failed=1; }
"$krillc" runs <input 2>error && failed=1
grep -qxF "$note" error && { echo "checks/program: a faulty command line tells of a rehearsal"; failed=1; }
expect 2 '' "$usage"
expect 2 '' "$usage" runs
expect 2 '' "$usage" run run
expect 2 '' "$usage" run --
expect 2 '' "$usage" run --rsync
expect 2 '' "$usage" run --rsync= --rrdp https://rpki.example/rrdp/
expect 2 '' "$usage" run --rrdp -https://rpki.example/rrdp/
expect 2 '' "$usage" audit --rsync rsync://a.example/b/ --rsync=rsync://a.example/b/
expect 2 '' "$usage" audit --rsync https://a.example/b/
expect 2 '' "$usage" run --rrdp http://a.example/b/
expect 2 '' "$usage" --rrdp https://a.example/b/ run
# Its clock may be let run behind, by 0 to 3600 seconds.
for KRILL_CLOCK_BEHIND in 3601 -1 soon ''; do
    export KRILL_CLOCK_BEHIND
    expect 2 '' "krillc: KRILL_CLOCK_BEHIND isn't a number of seconds from 0 to 3600
$usage" run
done
printf '{"command":"publish"}' >input
began=$(date +%s)
for KRILL_CLOCK_BEHIND in 0 3600; do
    rm -rf krill-data
    "$krillc" run <input >output 2>error || failed=1
    moment=$(sed 's/^{"moment":\([0-9]*\),.*/\1/' output)
    ended=$(date +%s)
    if [ "$moment" -lt $((began - KRILL_CLOCK_BEHIND)) ] || [ "$moment" -gt $((ended - KRILL_CLOCK_BEHIND)) ]; then
        echo "checks/program: a clock that is $KRILL_CLOCK_BEHIND seconds behind gives the moment $moment"
        failed=1
    fi
done
unset KRILL_CLOCK_BEHIND
printf '{"command":"roas update","ca":"ta","add":["10.0.0.0/16-24 => 64496"]}' >input
expect 0 '{"authority":"ta","count":1,"reply":"accepted"}
' '' run
: >input
cp krill-data/desk-00 whole
printf '\037' | dd of=krill-data/desk-00 bs=1 seek=24 conv=notrunc 2>dd-said
expect 3 '' 'krillc: opening refused: BadRecord device 0 at 0
' run
cp whole krill-data/desk-00
head -c 57 krill-data/desk-00 >cut
cp cut krill-data/desk-00
expect 3 '' 'krillc: opening refused: Damaged device 0 at 57
' run
cmp -s cut krill-data/desk-00 || { echo "checks/program: a damaged desk was changed"; failed=1; }
rm -r krill-data
printf '{"command":"roas update","ca":"ta"}' >input

# fails WHAT STATUS: says so unless the program ended with status 4 and its message.
fails() {
    without_note
    if [ "$2" != 4 ] || [ "$(cat error)" != 'krillc: device failed' ]; then
        echo "checks/program: $1: status $2, expected 4"
        failed=1
    fi
}

# A folder can be opened and not read.
got=0
"$krillc" run <. >output 2>error || got=$?
fails 'a source that fails at once' "$got"
cmp -s output /dev/null || { echo "checks/program: a reply without a line"; failed=1; }
if [ -w /dev/full ]; then
    for word in run --help; do
        got=0
        "$krillc" "$word" <input >/dev/full 2>error || got=$?
        fails "a full device and $word" "$got"
    done
fi

# The sessions that the documents show, each from an empty store.
for session in first tree; do
    rm -rf krill-data
    cp "$top/examples/$session-session.jsonl" input
    expect 0 "$(cat "$top/examples/$session-session.replies")
" '' run
done

# The session of the documents that publishes. Each publication has its own moment.
rm -r krill-data
got=0
"$krillc" run <"$top/examples/publish-session.jsonl" >output 2>error || got=$?
sed 's/"moment":[0-9][0-9]*/"moment":M/' output >told
if [ "$got" != 0 ] || ! cmp -s told "$top/examples/publish-session.replies"; then
    echo "checks/program: a session that publishes: status $got"
    diff told "$top/examples/publish-session.replies" || :
    failed=1
fi

# How many objects and origins were published last.
objects=$(sed -n 's/.*"objects":\([0-9]*\),"origins":\([0-9]*\),.*/"objects":\1,"origins":\2/p' output)

# The session that rolls a key, over three days of a clock that is told another time.
if command -v cc >/dev/null; then
    sh "$top/examples/run-keyroll-session" "$krillc" >output 2>error || {
        echo "checks/program: the session that rolls a key"
        cat output error
        failed=1
    }
fi

# What was published stands: the notification names the snapshot with its hash, beside the anchor's
# certificate and locator.
(
    cd krill-data/repo
    snapshot=$(ls -d */1/snapshot.xml)
    [ "$(find . -type f | LC_ALL=C sort | tr '\n' ' ')" = "./$snapshot ./notification.xml ./ta.cer ./ta.tal " ]
    grep -q "session_id=\"${snapshot%%/*}\" serial=\"1\"" notification.xml
    grep -q "/$snapshot\" hash=\"$(sha256sum <"$snapshot" | cut -d' ' -f1)\"" notification.xml
) || { echo "checks/program: published files: $(find krill-data/repo -type f)"; failed=1; }

# What was published is found again, audited and exported: its files are those that stood. A store keeps its bases.
cp -r krill-data/repo stood
rm -r krill-data/repo
: >input
"$krillc" audit <input >told 2>error || { echo "checks/program: an audit: $(cat error)"; failed=1; }
sed -n '1s/^{"moment":[0-9]*,\("objects":[0-9]*,"origins":[0-9]*\),"points":[0-9]*,"serial":1}$/\1/p' told >found
[ "$(cat found)" = "$objects" ] || { echo "checks/program: an audit tells $(cat told) of $objects"; failed=1; }
diff -r stood krill-data/repo || { echo "checks/program: other files after an audit"; failed=1; }
printf '{"command":"%s"}\n' serial publish serial >input
expect 0 '{"reply":"serial","serial":1}
{"code":24,"detail":"1","refused":"Nothing"}
{"reply":"serial","serial":1}
' '' run --rsync rsync://rpki.example/repo/
expect 3 '' 'krillc: opening refused: SiteDiffers kept rsync://rpki.example/repo/ given rsync://rpki.example/other/
' run --rsync=rsync://rpki.example/other/
cp krill-data/desk-00 whole
: >krill-data/desk-00
"$krillc" run <input >output 2>error && failed=1
without_note
grep -qx 'krillc: opening refused: CutPast desk 0 cut [0-9]* held 0' error || { echo "checks/program: a lost desk: $(cat error)"; failed=1; }
cp whole krill-data/desk-00
cp krill-data/press whole
head -c "$(($(wc -c <whole) - 1))" whole >krill-data/press
"$krillc" audit <input >output 2>error && failed=1
without_note
grep -qx 'krillc: opening refused: Damaged device 64 at [0-9]*' error || { echo "checks/program: a cut press: $(cat error)"; failed=1; }

# Desks without what was published of them begin a new trust anchor, and standard error says so.
rm krill-data/press
: >input
"$krillc" run <input >output 2>error || failed=1
grep -q '^krillc: .* a new trust anchor begins' error || { echo "checks/program: a new anchor is silent: $(cat error)"; failed=1; }
expect 0 '{"moment":0,"objects":0,"origins":0,"points":0,"serial":0}
' '' audit

# Where files can't be put the edition stands: each publication tries again, and so does the end of the run. A run
# over what couldn't be put isn't begun.
rm -r krill-data
mkdir krill-data
: >krill-data/repo
printf '{"command":"%s"}\n' publish publish serial >input
expect 4 '{"code":29,"detail":"1","refused":"OutletFault"}
{"code":29,"detail":"1","refused":"OutletFault"}
{"reply":"serial","serial":1}
' 'krillc: device failed
' run
expect 4 '' 'krillc: device failed
' run
rm -r krill-data
cp "$top/examples/publish-session.jsonl" input
"$krillc" run <input >output 2>error || failed=1
rm krill-data/press

# A signer whose pipes stand, and one that has only one of them.
printf '%s\n' '{"command":"publish"}' >input
if python3 -c 'import cryptography' 2>python-said; then
    "$top/signer/krill-signer" --keys keys --fifos krill-data/signer-0 --one-run 2>signer-said &
    signer=$!
    until { [ -p krill-data/signer-0.in ] && [ -p krill-data/signer-0.out ]; } || ! kill -0 $signer 2>>signer-said; do sleep 0.1; done
    "$krillc" run <input >output 2>error || { echo "checks/program: a signer at pipes: status $?"; failed=1; }
    wait $signer || { echo "checks/program: the signer: $(cat signer-said)"; failed=1; }
    sed 's/"moment":[0-9][0-9]*/"moment":M/' output >told
    [ "$(cat told)" = '{"moment":M,"objects":8,"origins":2,"reply":"published","serial":1}' ] || {
        echo "checks/program: a signer at pipes: $(cat output)"
        failed=1
    }
    [ "$(ls keys | grep -c '\.key$')" = 2 ] || { echo "checks/program: the signer kept: $(ls keys)"; failed=1; }
fi

# Pipes that can't be used are named: one of a pair, a file, a dangling link, a gap in the numbers.
: >input
rm -f krill-data/signer-*
mkfifo krill-data/signer-0.in
expect 4 '' "krillc: krill-data/signer-0.out is missing: the other pipe of the signer stands
krillc: device failed
" run
rm krill-data/signer-0.in
: >krill-data/signer-0.in
: >krill-data/signer-0.out
expect 4 '' 'krillc: krill-data/signer-0.in: no FIFO
krillc: device failed
' run
rm krill-data/signer-*
ln -s nowhere krill-data/signer-0.in
expect 4 '' 'krillc: krill-data/signer-0.in: no FIFO
krillc: device failed
' run
rm krill-data/signer-0.in
mkfifo krill-data/signer-1.in krill-data/signer-1.out
expect 4 '' 'krillc: krill-data/signer-0.in is missing: there is a signer of a greater number
krillc: device failed
' run

# One origin more than a configuration may have.
rm -r krill-data
awk 'BEGIN {
    printf "{\"command\":\"roas update\",\"ca\":\"ta\",\"add\":["
    for (n = 0; n < 1025; n++) printf "%s\"10.%d.%d.0/24 => 1\"", n ? "," : "", n / 256, n % 256
    printf "]}"
}' >input
expect 0 '{"code":15,"detail":"1025","refused":"TooManyOrigins"}
' '' run

# A second program is refused while the first one has the store, and then not.
mkfifo lines replies
"$krillc" run <lines >replies &
exec 3>lines 4<replies
printf '{"command":"roas update","ca":"ta"}\n' >&3
read -r first <&4
[ "$first" = '{"authority":"ta","count":1,"reply":"accepted"}' ] || { echo "checks/program: $first"; failed=1; }
: >input
expect 4 '' 'krillc: device failed
' run
exec 3>&- 4<&-
wait
expect 0 '' '' run

# Standard streams that are closed at the start: nothing that is meant for one lands in the store.
printf '%s\n' '{"command":"roas update","ca":"ta","add":["10.0.0.0/16 => 1"]}' >input
rm -r krill-data
expect 0 '{"authority":"ta","count":1,"reply":"accepted"}
' '' run
cp -r krill-data store
cp -r krill-data damaged
printf '\037' | dd of=damaged/desk-00 bs=1 seek=24 conv=notrunc 2>dd-said
printf '%s\n' '{"command":"roas update","ca":"ta","add":["10.0.0.0/16 => 1"]}' >refused
printf '%s\n' '{"command":"roas update","ca":"ta","add":["10.1.0.0/16 => 1"]}' >accepted
printf 'no command\n' >bad
: >empty

# over_closed CLOSED STATUS STORE AFTER INPUT WORDS..: runs the program over a copy of the store with these streams
# closed. Each file of the store has to be as in AFTER.
over_closed() {
    closed=$1 status=$2 store=$3 kept=$4 lines=$5
    shift 5
    rm -rf krill-data
    cp -r "$store" krill-data
    got=0
    case $closed in
    0) "$krillc" "$@" <&- >output 2>error || got=$? ;;
    1) "$krillc" "$@" <"$lines" >&- 2>error || got=$? ;;
    2) "$krillc" "$@" <"$lines" >output 2>&- || got=$? ;;
    01) "$krillc" "$@" <&- >&- 2>error || got=$? ;;
    02) "$krillc" "$@" <&- >output 2>&- || got=$? ;;
    12) "$krillc" "$@" <"$lines" >&- 2>&- || got=$? ;;
    012) "$krillc" "$@" <&- >&- 2>&- || got=$? ;;
    esac
    if [ "$got" != "$status" ] || ! diff -r krill-data "$kept" >differs; then
        echo "checks/program: krillc $* over $lines with $closed closed: status $got, expected $status"
        cat differs
        failed=1
    fi
}

rm -rf krill-data
cp -r store krill-data
"$krillc" run <accepted >output
cp -r krill-data grown
for closed in 0 1 2 01 02 12 012; do
    # A closed input fails at once, and a closed output at the first reply.
    case $closed in
    0*) read_fails=4 reply_fails=4 after=store ;;
    1*) read_fails=0 reply_fails=4 after=grown ;;
    *) read_fails=0 reply_fails=0 after=grown ;;
    esac
    case $closed in
    *1*) text_fails=4 ;;
    *) text_fails=0 ;;
    esac
    over_closed "$closed" "$read_fails" store store empty run
    over_closed "$closed" "$reply_fails" store store bad run
    over_closed "$closed" "$reply_fails" store store refused run
    over_closed "$closed" "$reply_fails" store "$after" accepted run
    over_closed "$closed" 2 store store empty runs
    over_closed "$closed" 3 damaged damaged accepted run
    over_closed "$closed" "$text_fails" store store empty --help
    over_closed "$closed" "$text_fails" store store empty --version
done
# What is there is found again.
rm -r krill-data
cp -r grown krill-data
printf '%s\n' '{"command":"roas update","ca":"ta","remove":["10.1.0.0/16 => 1"]}' >input
expect 0 '{"authority":"ta","count":3,"reply":"accepted"}
' '' run

# A limit on the size of files, within a journal and within the replies. What was accepted is found again.
awk 'BEGIN {
    for (n = 0; n < 40; n++) printf "{\"command\":\"roas update\",\"ca\":\"ta\",\"add\":[\"10.%d.0.0/16 => 1\"]}\n", n
}' >many

# reopened_after COUNT: the store has that many commands, or one more, whose reply nobody heard.
reopened_after() {
    : >input
    expect 0 '' '' run
    printf '{"command":"roas update","ca":"ta"}\n' >input
    next=$("$krillc" run <input)
    for more in 1 2; do
        [ "$next" = "{\"authority\":\"ta\",\"count\":$(($1 + more)),\"reply\":\"accepted\"}" ] && return
    done
    echo "checks/program: after $1 accepted commands a new one gets $next"
    failed=1
}

rm -r krill-data
(
    trap '' XFSZ
    ulimit -f 1
    "$krillc" run <many 2>error || echo "ended with $?"
) | cat >output
accepted=$(grep -c accepted output)
{
    for n in $(seq "$accepted"); do printf '{"authority":"ta","count":%d,"reply":"accepted"}\n' "$n"; done
    printf '{"code":23,"detail":"0","refused":"DiskFault"}\n'
    for n in $(seq $((39 - accepted))); do printf '{"code":21,"detail":"","refused":"Shut"}\n'; done
} >want-output
if [ "$accepted" = 0 ] || ! cmp -s output want-output; then
    echo "checks/program: other replies where a journal meets a limit"
    failed=1
fi
reopened_after "$accepted"

rm -r krill-data
got=0
(
    trap '' XFSZ
    ulimit -f 1
    "$krillc" run <many >output 2>error
) || got=$?
fails 'replies that meet a limit' "$got"
heard=$(wc -l <output)
for n in $(seq 40); do printf '{"authority":"ta","count":%d,"reply":"accepted"}\n' "$n"; done >want-output
if [ "$heard" = 0 ] || ! head -c "$(wc -c <output)" want-output | cmp -s - output; then
    echo "checks/program: other replies where they meet a limit"
    failed=1
fi
reopened_after "$heard"

[ "$failed" = 0 ] && echo "checks/program: ok"
exit "$failed"
