#!/bin/sh
# Asks bin/robots-decide, and holds what it prints and its exit status to document 01: the harbour table, the table of refusals and the program's example.
# Then it breaks what the script rests on, in a small repository of its own. The last line has the number of checks; the exit status is 1 if one failed.
set -u

stop() {
    echo "conformance/script/test.sh: $1" >&2
    exit 2
}

[ $# -eq 0 ] || stop "it takes no arguments: run 'sh conformance/script/test.sh'"
cd "$(dirname "$0")/../.." || exit 2
root=$(pwd -P)
ask=$root/bin/robots-decide
proved=$root/crates/robots_decide/out/robots_decide
[ -x "$proved" ] || stop "crates/robots_decide/out/robots_decide is missing: run 'make' at the repository's root"
room=$(mktemp -d) || stop "can't make a temporary folder: set TMPDIR to a folder that can be written"
trap 'rm -rf "$room"' EXIT

checks=0
failures=0

# Counts one check: its label, and a command that succeeds if it passes.
check() {
    label=$1
    shift
    checks=$((checks + 1))
    "$@" && return
    failures=$((failures + 1))
    printf 'failed: %s\n' "$label"
}

run() {
    "$@" >"$room/out" 2>"$room/err"
    status=$?
}

# The last run ended with this status, and wrote this line or these lines.
gave() {
    printf '%s\n' "$2" >"$room/expected"
    [ "$status" -eq "$1" ] && cmp -s "$room/out" "$room/expected" && return
    echo "status $status, where $1 is due; it wrote:"
    cat "$room/out" "$room/err"
    return 1
}

# The last run gave this, and said nothing else.
answered() {
    gave "$1" "$2" && cmp "$room/err" "$room/empty"
}

# The last run ended with status 2 and no answer, and its one message is the script's and has this phrase.
complained() {
    [ "$status" -eq 2 ] && [ ! -s "$room/out" ] && [ "$(wc -l <"$room/err")" -eq 1 ] && grep -q "^robots-decide: .*$1" "$room/err" && return
    echo "status $status, where 2 is due, and one message with '$1'; it wrote:"
    cat "$room/out" "$room/err"
    return 1
}

answers() { # LABEL STATUS LINE COMMAND...
    label=$1 due=$2 line=$3
    shift 3
    run "$@"
    check "$label" answered "$due" "$line"
}

complains() { # LABEL PHRASE COMMAND...
    label=$1 phrase=$2
    shift 2
    run "$@"
    check "$label" complained "$phrase"
}

# Document 01's table, as sentences.
refusal() {
    echo "refused $1"
    case $1 in
        2) echo 'The name is empty, is longer than 64 octets, or holds an octet other than A-Z, a-z, "-" and "_".' ;;
        3) echo 'The path is empty or longer than 2,048 octets.' ;;
        4) echo 'The path does not begin with "/".' ;;
        5) echo 'The path holds a space, another octet of 0x20 or less, or "#".' ;;
        7) echo 'The name, the path and the file, with one octet behind the name and one behind the path, are longer than 65,536 octets.' ;;
    esac
}

refuses() { # LABEL NUMBER COMMAND...
    label=$1 number=$2
    shift 2
    answers "$label" 2 "$(refusal "$number")" "$@"
}

inside() ( # FOLDER COMMAND...
    cd "$1" && shift && "$@"
)

# Writes this octet so many times.
repeated() {
    head -c "$2" /dev/zero | tr '\0' "$1"
}

lf='
'
cr=$(printf '\r')
tab=$(printf '\t')
nothing='allow line 0 unread 0 compared 0'
printf 'user-agent: *\ndisallow: /sailings/draft\nallow: /sailings\n' >"$room/example"
printf 'user-agent: a\ndisallow: /\n' >"$room/closed"
: >"$room/empty"

# ---- document 01's example, in each way that a file can come

example='disallow line 2 unread 0 compared 24'
check 'examples/robots.txt is the example' cmp examples/robots.txt "$room/example"
answers 'the example as a file' 1 "$example" "$ask" drydockbot /sailings/draft/9 "$room/example"
answers 'the example on standard input' 1 "$example" "$ask" drydockbot /sailings/draft/9 <"$room/example"
answers 'the example on standard input, as -' 1 "$example" "$ask" drydockbot /sailings/draft/9 - <"$room/example"
# shellcheck disable=SC2016
answers 'the example through a pipe' 1 "$example" sh -c '{ head -n 1; cat; } <"$2" | "$1" drydockbot /sailings/draft/9' sh "$ask" "$room/example"
answers 'a file, and not standard input' 0 "$nothing" "$ask" a /x "$room/empty" <"$room/closed"

# ---- the harbour table, with M-102's row: name, path, file, status, answer

rows=0
while IFS=';' read -r name path file due line; do
    rows=$((rows + 1))
    printf '%s' "$file" | tr '|' '\n' >"$room/row"
    answers "the harbour table, row $rows" "$due" "$line" "$ask" "$name" "$path" "$room/row"
done <<'END'
a;/;;0;allow line 0 unread 0 compared 0
A;/x;user-agent: a|disallow: /;1;disallow line 2 unread 0 compared 1
a;/%72obots.txt;user-agent: a|disallow: /;0;allow line 0 unread 0 compared 0
b;/x;user-agent: a|disallow: /;0;allow line 0 unread 0 compared 0
a;/page;user-agent: *|allow: /p|disallow: /;0;allow line 2 unread 0 compared 3
a;/folder/page;user-agent: *|disallow: /folder|allow: /folder;0;allow line 3 unread 0 compared 14
a;/page.htm;user-agent: *|allow: /page|disallow: /*.htm;1;disallow line 3 unread 0 compared 14
a;/filename.php5;user-agent: *|disallow: /*.php$;0;allow line 0 unread 0 compared 2
a;/path/foo-$;user-agent: *|disallow: /path/foo-%24;1;disallow line 2 unread 0 compared 13
a;/;user-agent: a|sitemap: x|user-agent: b|disallow: /;1;disallow line 4 unread 0 compared 1
a;/;user-agent: a|disallow: x|user-agent: b|disallow: /;0;allow line 0 unread 1 compared 0
a;/x.gif;user-agent: *|disallow: *.gif$;1;disallow line 2 unread 0 compared 4
END
check 'every row was asked, so none was read as the file' [ "$rows" -eq 12 ]

# ---- refusals, and what is just inside

refuses 'no name' 2 "$ask" '' /x "$room/empty"
answers 'a name of 64 octets' 0 "$nothing" "$ask" "$(repeated n 64)" / "$room/empty"
refuses 'a name of 65 octets' 2 "$ask" "$(repeated n 65)" / "$room/empty"
refuses 'a name with a space' 2 "$ask" 'a b' / "$room/empty"
refuses 'a name with a version' 2 "$ask" a/2.1 / "$room/empty"
refuses 'a star as the name' 2 "$ask" '*' / "$room/empty"
refuses 'a name with CR' 2 "$ask" "a$cr" / "$room/empty"
refuses 'a name with LF at its end' 2 "$ask" "a$lf" / "$room/empty"
refuses 'a name with LF at its start' 2 "$ask" "${lf}a" / "$room/empty"
refuses 'a name that holds a whole question' 2 "$ask" "a$lf/$lf" / "$room/empty"
refuses 'LF as the name' 2 "$ask" "$lf" / "$room/empty"
refuses 'a name and a path that are refused: the smallest number' 2 "$ask" '' '' "$room/empty"
refuses 'no path' 3 "$ask" a '' "$room/empty"
answers 'a path of 2,048 octets' 0 "$nothing" "$ask" a "/$(repeated p 2047)" "$room/empty"
refuses 'a path of 2,049 octets' 3 "$ask" a "/$(repeated p 2048)" "$room/empty"
refuses 'a path without its /' 4 "$ask" a x "$room/empty"
refuses 'an address as the path' 4 "$ask" a http://example.com/x "$room/empty"
refuses 'a path with LF at its start' 4 "$ask" a "$lf/x" "$room/empty"
refuses 'a path that looks like an option' 4 "$ask" a --help "$room/empty"
refuses 'a path with a space' 5 "$ask" a '/a b' "$room/empty"
refuses 'a path with a tab' 5 "$ask" a "/a${tab}b" "$room/empty"
refuses 'a path with #' 5 "$ask" a '/a#b' "$room/empty"
refuses 'a path with CR' 5 "$ask" a "/x$cr" "$room/empty"
refuses 'a path with LF at its end' 5 "$ask" a "/x$lf" "$room/empty"
refuses 'a path that holds a file too' 5 "$ask" a "/x${lf}user-agent: *" "$room/empty"

# with "a", "/" and an LF behind each there are four octets before the file
{ cat "$room/closed" && repeated '#' 65506; } >"$room/longest"
{ cat "$room/longest" && echo; } >"$room/too-long"
check 'the longest file has 65,532 octets' [ "$(wc -c <"$room/longest")" -eq 65532 ]
answers 'an input of 65,536 octets' 1 'disallow line 2 unread 0 compared 1' "$ask" a / "$room/longest"
refuses 'an input of 65,537 octets' 7 "$ask" a / "$room/too-long"
refuses 'an input of 65,537 octets, from standard input' 7 "$ask" a / <"$room/too-long"
refuses 'one octet more in the path' 7 "$ask" a /x "$room/longest"
refuses 'a refused name and a long file: 7 before all others' 7 "$ask" 'a b' / "$room/too-long"
refuses 'an input without end' 7 "$ask" a / /dev/zero
refuses 'a path that is too long for the input' 7 "$ask" a "/$(repeated p 100000)" "$room/empty"

# ---- octets that a shell could change: each path is closed by the pattern beside it

closes() { # PATTERN PATH PAIRS
    printf 'user-agent: *\ndisallow: %s\n' "$1" >"$room/octets"
    answers "a path that $1 closes" 1 "disallow line 2 unread 0 compared $3" "$ask" a "$2" "$room/octets"
}
closes '/a%20b' '/a%20b' 6
closes '/%s%d' '/%s%d' 9
closes '/a\n\0101\\' '/a\n\0101\\' 11
closes '/\c' '/\c' 3
closes '/%2A' '/*' 4
closes '*' '/*' 0
closes '*%2A' '/*' 4
closes "/'\"" "/'\"" 3
# shellcheck disable=SC2016
closes '/%24HOME' '/$HOME' 8
closes '/~;&|<>()`?[x]' '/~;&|<>()`?[x]' 14
closes '/%C3%A9' "$(printf '/\303\251')" 7
closes '/%FF' "$(printf '/\377')" 4

# ---- names that begin with -

for name in - -n -h --help --; do
    printf 'user-agent: %s\ndisallow: /\n' "$name" >"$room/named"
    answers "the name $name behind --" 1 'disallow line 2 unread 0 compared 1' "$ask" -- "$name" /x "$room/named"
done
printf 'user-agent: -\ndisallow: /\n' >"$room/named"
answers 'the name - by itself' 1 'disallow line 2 unread 0 compared 1' "$ask" - /x "$room/named"

# ---- files

printf 'user-agent: a\r\ndisallow: /\r\n' >"$room/crlf"
answers 'a file with CR LF' 1 'disallow line 2 unread 0 compared 1' "$ask" a /x "$room/crlf"
printf 'user-agent: a\rdisallow: /' >"$room/cr"
answers 'a file with CR, without a final one' 1 'disallow line 2 unread 0 compared 1' "$ask" a /x "$room/cr"
printf '\n\nuser-agent: a\ndisallow: /\n\n' >"$room/blank"
answers 'a file that begins with blank lines' 1 'disallow line 4 unread 0 compared 1' "$ask" a /x "$room/blank"
printf '\357\273\277user-agent: a\ndisallow: /\n' >"$room/marked"
answers 'a file that begins with a mark' 1 'disallow line 2 unread 0 compared 1' "$ask" a /x "$room/marked"
# NUL behind a name is ignored; in front of it the line is unread, and names nobody
printf 'user-agent: a\0\nuser-agent: \0b\ndisallow: /\n' >"$room/nul"
answers 'a file with NUL' 1 'disallow line 3 unread 1 compared 1' "$ask" a /x "$room/nul"
answers 'a file with NUL in front of a name' 0 'allow line 0 unread 1 compared 0' "$ask" b /x "$room/nul"
printf 'user-agent: DrydockBot/2.1\ndisallow: /\n' >"$room/version"
answers 'a file with a version behind the name' 1 'disallow line 2 unread 0 compared 1' "$ask" drydockbot /x "$room/version"
cp "$room/closed" "$room/-f x"
answers 'a file whose name begins with - and has a space' 1 'disallow line 2 unread 0 compared 1' inside "$room" "$ask" a /x '-f x'
answers 'no file at all on standard input' 0 "$nothing" "$ask" a /x </dev/null

# ---- bad use, and what can't be read or written

complains 'no arguments' 'give it a name' "$ask"
complains 'a name alone' 'give it a name' "$ask" a
complains 'four arguments' 'give it a name' "$ask" a / "$room/empty" x
complains '-- alone' 'give it a name' "$ask" --
complains 'an unknown option' '-x is no option' "$ask" -x a / "$room/empty"
complains '--help as a name opens nothing' '--help is no option' "$ask" --help / "$room/empty"
complains 'a missing file' 'give it a file that can be read' "$ask" a / "$room/missing"
complains 'a missing file, and a name that is refused' 'give it a file that can be read' "$ask" '' / "$room/missing"
complains 'an empty word as the file' 'give it a file that can be read' "$ask" a / ''
complains 'a folder as the file' 'give it a file that can be read' "$ask" a / "$room"
complains 'a folder as standard input' 'give it a file that can be read' "$ask" a / <"$room"
complains 'no standard input' 'standard input is closed' "$ask" a / <&-

# runs a command with a socket as its standard input, from which a part of a file can be read before it is reset
reset() {
    python3 -B -c '
import socket, subprocess, sys
ours, theirs = socket.socketpair()
ours.send(b"x")
theirs.send(b"user-agent: *\n")
theirs.close()
sys.exit(subprocess.run(sys.argv[1:], stdin=ours).returncode)' "$@"
}
complains 'a standard input that is reset' 'give it a file that can be read' reset "$ask" a /
# root may open every file, but not even root can read this one's first octet
complains 'a file that opens, and cannot be read' 'give it a file that can be read' "$ask" a / /proc/self/mem
complains 'no temporary file' 'set TMPDIR' env TMPDIR="$room/missing" "$ask" a / "$room/empty"
# shellcheck disable=SC2016
complains 'an allow that cannot be written' 'standard output' sh -c '"$1" a / "$2" >/dev/full' sh "$ask" "$room/empty"

# ---- from another folder, and by another name

mkdir "$room/links"
ln -s "$ask" "$room/links/absolute"
ln -s absolute "$room/links/relative"
answers 'from another folder' 1 "$example" inside "$room" "$ask" drydockbot /sailings/draft/9 example
answers 'from its own folder' 1 "$example" inside bin ./robots-decide drydockbot /sailings/draft/9 ../examples/robots.txt
answers 'through a link to a link' 1 "$example" inside "$room/links" ./relative drydockbot /sailings/draft/9 ../example
answers 'through a link in the search path' 1 "$example" env PATH="$room/links:$PATH" absolute drydockbot /sailings/draft/9 "$room/example"
answers 'by sh' 1 "$example" sh bin/robots-decide drydockbot /sailings/draft/9 examples/robots.txt

# ---- --help

"$ask" --help >"$room/help"
check '--help ends with 0' [ $? -eq 0 ]
run "$ask" -h
check '-h is --help' cmp "$room/out" "$room/help"
told=$(sed -n 's/^    //p' "$room/help")
check '--help shows one command and its line' [ "$(echo "$told" | wc -l)" -eq 2 ]
check '--help shows document 01'\''s answer' [ "$(echo "$told" | tail -n 1)" = "$example" ]
answers '--help: the command as it stands there' 1 "$example" sh -c "$(echo "$told" | head -n 1)"
check '--help tells the exit statuses' grep -q '^The exit status is 0 for allow, 1 for disallow, and 2 for a refusal' "$room/help"
for number in 2 3 4 5 7; do
    check "--help tells refusal $number" [ "$(grep -Fx -A 1 "refused $number" "$room/help")" = "$(refusal "$number")" ]
done

# ---- programs that give no answer, in a repository of their own

repository=$room/repository
crate=$repository/crates/robots_decide
mkdir -p "$repository/bin" "$crate/src" "$crate/specs" "$crate/proofs" "$crate/out"
cp "$ask" "$repository/bin/"
: >"$repository/crates.txt"
copy=$repository/bin/robots-decide
program=$crate/out/robots_decide

# Writes a shell script.
plant() { # PLACE TEXT
    printf '#!/bin/sh\n%s\n' "$2" >"$1"
    chmod +x "$1"
}

plant "$program" "echo '$nothing'"
answers 'a program that allows' 0 "$nothing" "$copy" a / "$room/empty"
while IFS= read -r text; do
    plant "$program" "$text"
    complains "a program that does: $text" 'ask again' "$copy" a / "$room/empty"
done <<'END'
:
echo
echo rubbish
echo allow
echo 'allow line 0'
echo 'allow line x unread 0 compared 0'
echo 'allow line 0 unread 0 compared 0.'
echo ' allow line 0 unread 0 compared 0'
echo 'allow line 0 unread 0 compared 0'; echo rubbish
echo 'allow line 0 unread 0 compared 0'; exit 1
echo 'refused'
echo 'refused 0'
echo 'refused 1'
echo 'refused 23'
END
# the shell says "Killed" too
# shellcheck disable=SC2016
plant "$program" 'echo "allow line 0 unread 0 compared 0"; kill -KILL $$'
run "$copy" a / "$room/empty"
check 'a program that is killed opens nothing' [ "$status" -eq 2 ]
check 'nothing of what it wrote is printed' [ ! -s "$room/out" ]

# ---- building

mkdir "$room/tools"
# what rt is asked, where, and that it finds nothing to read; it runs what it has built
plant "$room/tools/rt" "echo \"\$PWD: rt \$*: \$(wc -c) octets\" >&2; cp '$proved' '$program'; echo '$nothing'"
builds() { # COMMAND...
    env PATH="$room/tools:$PATH" "$@"
}
rm "$program"
run builds "$copy" drydockbot /sailings/draft/9 <"$room/example"
check 'the first run builds, and still reads its own input' gave 1 "$example"
rm "$program"
run builds "$copy" drydockbot /sailings/draft/9 "$room/example" <"$room/closed"
check 'the first run builds, and leaves standard input alone' gave 1 "$example"
check 'it says so first' [ "$(head -n 1 "$room/err")" = 'robots-decide: proving and building the program, which takes some minutes the first time' ]
check 'rt is asked for the program, in its folder' [ "$(tail -n 1 "$room/err")" = "$(cd "$crate" && pwd -P): rt run: 0 octets" ]

plant "$room/tools/rt" 'exit 1'
answers 'the second run does not build' 1 "$example" builds "$copy" drydockbot /sailings/draft/9 "$room/example"
touch -t 200001010000 "$program"
run builds "$copy" a / "$room/empty"
check 'sources that are newer, and not proved, open nothing' [ "$status" -eq 2 ]
check 'nothing is answered by the older program' [ ! -s "$room/out" ]
check 'it says that they are not proved' grep -q '^robots-decide: the program is not proved' "$room/err"

plant "$room/tools/rt" 'exit 0'
run builds "$copy" a / "$room/empty"
check 'sources that are newer, and make no other program' gave 0 "$nothing"
plant "$room/tools/rt" 'exit 1'
answers 'they are not tried again' 0 "$nothing" builds "$copy" a / "$room/empty"

rm "$program"
plant "$room/tools/rt" 'exit 0'
run builds "$copy" a / "$room/empty"
check 'a build that makes nothing opens nothing' [ "$status" -eq 2 ]
check 'it says what to do' grep -q '^robots-decide: .*remove crates/robots_decide/out/ and ask again' "$room/err"

# ---- a search path without rt, and one whose head breaks off

mkdir "$room/bare"
for tool in cat find head mktemp readlink rm sh touch tr; do
    ln -s "$(command -v "$tool")" "$room/bare/$tool"
done
complains 'neither program nor rt' "rt is not installed: see README.md, 'What you need'" env PATH="$room/bare" "$copy" a / "$room/empty"
answers 'the program, but not rt' 0 "$nothing" env PATH="$room/bare" "$ask" a / "$room/empty"
rm "$room/bare/head"
plant "$room/bare/head" 'echo "user-agent: a"; echo "head: broken off" >&2; exit 1'
complains 'a file that breaks off is not answered for its front' 'broken off: give it a file' env PATH="$room/bare" "$ask" a / "$room/closed"

if [ "$failures" -gt 0 ]; then
    echo "conformance/script/test.sh: $failures of $checks checks failed"
    exit 1
fi
echo "conformance/script/test.sh: $checks checks passed"
