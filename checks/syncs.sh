#!/bin/sh
# Looks at the calls that the built program makes on the anchor's file: each write of a commit is synced before the
# next call and before the reply, also where a signal interrupts the syncs, and no command is accepted whose sync
# fails. Then at those on the press's file: an edition's are like a command's. Then at those of an export: each file is synced before it is renamed, and its folders before the next file is
# begun and before the reply, and no export is told as done of which a call fails. The program is built where it is
# missing; skipped where there is no rt for that, or no strace that may trace.
set -eu
top=$(cd "$(dirname "$0")/.." && pwd)
strace -o /dev/null true 2>/dev/null || { echo "checks/syncs: no strace, skipped"; exit 0; }
krillc=$(sh "$top/checks/built" krillc --version)
[ -n "$krillc" ] || { echo "checks/syncs: krillc isn't built, skipped"; exit 0; }
scratch=$(mktemp -d)
trap 'rm -rf "$scratch"' EXIT
cd "$scratch"

# What strace puts in the place of some calls.
tampering=
# The file whose calls are looked at.
journal=desk-00
# The calls of a run over these lines that change that file, sync it, or give a reply.
calls_over() {
    # shellcheck disable=SC2086
    strace -y -o calls $tampering -e trace=pwrite64,write,ftruncate,fsync,fdatasync "$krillc" run <"$1" >replies
    sed -n \
        -e "s/^pwrite64([0-9]*<[^>]*\/$journal>, .*, \([0-9]*\), \([0-9]*\)) *= [0-9]*\$/write \1 at \2/p" \
        -e "s/^ftruncate([0-9]*<[^>]*\/$journal>, .*\$/cut/p" \
        -e "s/^fsync([0-9]*<[^>]*\/$journal>) *= 0\$/sync/p" \
        -e "s/^fdatasync([0-9]*<[^>]*\/$journal>) *= 0\$/sync of the data/p" \
        -e 's/^write(1<.*$/reply/p' calls
}

# Compares the calls over these lines with those that are wanted.
expect_calls() {
    calls_over "$1" >seen
    cat >wanted
    if ! cmp -s wanted seen; then
        echo "checks/syncs: other calls were made over $1:" >&2
        diff wanted seen >&2 || true
        exit 1
    fi
}

cat >first <<'LINES'
{"command":"roas update","ca":"ta","add":["10.0.0.0/16-24 => 64496"]}
LINES
# The first two calls of a run sync the file where it is opened as a file and as a journal.
expect_calls first <<'CALLS'
sync
sync
write 17 at 0
sync
write 41 at 17
sync
write 1 at 16
sync
reply
CALLS

# How many lines of the standard input are this path.
count_of() {
    grep -cx "$1" || true
}

expect_syncs() {
    [ "$2" -eq "$3" ] || { echo "checks/syncs: $2 of $3 syncs of $1" >&2; exit 1; }
}

# Each desk's file is synced, and once their names in the folder, and the folder's own name.
sed -n 's/^fsync([0-9]*<\([^>]*\)>) *= 0$/\1/p' calls >synced
here=$(pwd -P)
expect_syncs "different files" "$(sort -u synced | count_of "$here/krill-data/desk-[0-9][0-9]")" 64
expect_syncs "the folder" "$(count_of "$here/krill-data" <synced)" 1
expect_syncs "the working directory" "$(count_of "$here" <synced)" 1

cat >second <<'LINES'
{"command":"roas update","ca":"ta","add":["10.0.0.0/16-24 => 64496"]}
{"command":"roas update","ca":"ta","remove":["10.0.0.0/16-24 => 64496"]}
LINES
# A refused command changes nothing; its reply goes with that of the accepted one behind it.
expect_calls second <<'CALLS'
sync
sync
write 41 at 58
sync
write 1 at 57
sync
reply
CALLS

# Each second sync is interrupted, and made again.
tampering='-e inject=fsync,fdatasync:error=EINTR:when=1+2'
expect_calls second <<'CALLS'
sync
sync
write 41 at 99
sync
write 1 at 98
sync
reply
write 41 at 140
sync
write 1 at 139
sync
reply
CALLS
[ "$(grep -c 'EINTR.*INJECTED' calls)" -ge 4 ] || { echo "checks/syncs: no sync was interrupted" >&2; exit 1; }

# A sync of a commit that fails, the first or the second: opening makes two.
cat >third <<'LINES'
{"command":"roas update","ca":"ta","add":["10.2.0.0/16-24 => 64496"]}
{"command":"roas update","ca":"ta","add":["10.3.0.0/16-24 => 64496"]}
LINES
for nth in 3 4; do
    rm -rf failing
    mkdir failing
    cp -R krill-data failing/
    (cd failing && strace -o ../calls -P "$here/failing/krill-data/desk-00" -e trace=fsync,fdatasync \
        -e "inject=fsync,fdatasync:error=EIO:when=$nth" "$krillc" run <../third >../replies)
    grep -q 'EIO.*INJECTED' calls || { echo "checks/syncs: no sync failed" >&2; exit 1; }
    if grep -q accepted replies || ! head -n 1 replies | grep -q DiskFault || ! tail -n 1 replies | grep -q Shut; then
        echo "checks/syncs: a sync that failed was taken for done:" >&2
        cat replies >&2
        exit 1
    fi
done

# The calls on the press's file: the store's record where it is new, and an edition's, all before the reply.
tampering=
journal=press
mkdir pressed
cd pressed
cat >first <<'LINES'
{"command":"roas update","ca":"ta","add":["10.0.0.0/16-24 => 64496"]}
{"command":"publish"}
LINES
expect_calls first <<'CALLS'
sync
sync
write 17 at 0
sync
write 88 at 17
sync
write 1 at 16
sync
reply
write 6291 at 105
sync
write 1 at 104
sync
reply
CALLS
# The next run has it, and a publication that has nothing to do makes no call.
printf '{"command":"serial"}\n{"command":"publish"}\n' >second
expect_calls second <<'CALLS'
sync
sync
reply
reply
CALLS
# A sync of an edition that fails: opening makes two. No edition is told, and the next run finds the old one or the new.
printf '%s\n' '{"command":"roas update","ca":"ta"}' '{"command":"publish"}' '{"command":"publish"}' '{"command":"serial"}' >third
for nth in 3 4; do
    rm -rf failing
    mkdir failing
    cp -R krill-data failing/
    (cd failing && strace -o ../calls -P "$(pwd -P)/krill-data/press" -e trace=fsync,fdatasync \
        -e "inject=fsync,fdatasync:error=EIO:when=$nth" "$krillc" run <../third >../replies)
    grep -q 'EIO.*INJECTED' calls || { echo "checks/syncs: no sync of the press failed" >&2; exit 1; }
    sed 1d replies >told
    printf '%s\n' '{"code":23,"detail":"64","refused":"DiskFault"}' '{"code":21,"detail":"","refused":"Shut"}' \
        '{"reply":"serial","serial":1}' | cmp - told || { echo "checks/syncs: a sync of the press failed, and it was told:" >&2; cat replies >&2; exit 1; }
    (cd failing && "$krillc" audit >../told)
    grep -q '"serial":[12]}$' told || { echo "checks/syncs: after a sync of the press that failed: $(cat told)" >&2; exit 1; }
done
cd ..

# The calls of an export, and the replies; `S` is the session's folder.
cat >publishes <<'LINES'
{"command":"publish"}
{"command":"roas update","ca":"ta","add":["10.4.0.0/16-24 => 64496"]}
{"command":"publish"}
{"command":"roas update","ca":"ta","add":["10.5.0.0/16-24 => 64496"]}
{"command":"publish"}
LINES
strace -y -o calls -e trace=openat,write,fsync,fdatasync,rename,renameat,renameat2,unlink,unlinkat,rmdir \
    "$krillc" run <publishes >replies 2>said
sed -nE -e "s|$here/krill-data/repo|repo|g" -e 's|krill-data/repo|repo|g' -e 's|repo/[0-9a-f-]{36}|repo/S|g' \
    -e 's|^openat\(.*"repo/\.draft", O_WRONLY.*|draft|p' \
    -e 's|^fsync\([0-9]*<(repo[^>]*)>\) *= 0$|sync \1|p' \
    -e 's|^rename[a-z0-9]*\(.*"repo/\.draft", .*"(repo[^"]*)".*\) *= 0$|rename \1|p' \
    -e 's|^unlink[a-z]*\(.*"(repo[^"]*)".*\) *= 0$|remove \1|p' \
    -e 's|^write\(1<.*"\{\\"moment.*|published|p' calls >seen
placed() {
    printf '%s\n' draft "sync repo/.draft" "rename $1"
    shift
    printf 'sync %s\n' "$@"
}
for serial in 1 2 3; do
    placed "repo/S/$serial/snapshot.xml" "repo/S/$serial" repo/S repo
    # A delta is shorter than what stands, since what fits isn't made anew. The session's earlier ones are there.
    [ "$serial" = 1 ] || placed "repo/S/$serial/delta.xml" "repo/S/$serial" repo/S repo
    for file in ta.cer ta.tal notification.xml; do placed "repo/$file" repo; done
    [ "$serial" = 3 ] && echo "remove repo/S/1/snapshot.xml"
    echo published
done >wanted
if ! cmp -s wanted seen; then
    echo "checks/syncs: other calls were made by exports:" >&2
    diff wanted seen >&2 || true
    exit 1
fi

# fails_at CALL NTH WORDS..: an export of which that call fails, of those that are traced.
fails_at() {
    call=$1 nth=$2
    shift 2
    rm -rf krill-data
    mkdir -p krill-data/repo
    strace -o calls "$@" -e "trace=$call" -e "inject=$call:error=EIO:when=$nth" "$krillc" run <publishes >replies 2>said
    grep -q 'EIO.*INJECTED' calls || { echo "checks/syncs: $call of number $nth didn't fail" >&2; exit 1; }
    grep -q OutletFault replies || {
        echo "checks/syncs: an export was told as done whose $call of number $nth failed:" >&2
        cat replies >&2
        exit 1
    }
}
# Of the first of the three exports there are four renames, of each other one, which has a delta, five, and in the last one
# a removal. The first removal of a run is of what an audit may have left.
for nth in 1 2 4 6 9 10 11 14; do fails_at rename "$nth"; done
fails_at unlink 2
# Each file's sync, and each time that of the repository's folder.
for nth in 1 2 7 8 11 21 28; do fails_at fsync "$nth" -P "$here/krill-data/repo" -P "$here/krill-data/repo/.draft"; done
echo "checks/syncs: ok"
