#!/bin/sh
# Pastes the commands of a page into bash, in a temporary folder: readme.sh PROGRAM [PAGE]. Without PAGE it takes README.md.
# It takes every indented block but those that begin with a double quote, which show output, and skips lines that fetch or
# build the program (git, cd, make). It replaces the program's path and the port. No command may fail or print `fault:`,
# all together have a minute, and what stands behind `&& echo` has to be printed. If the page names submitted.csv, it has to
# be deposit.csv.
set -u
top=$(cd "$(dirname "$0")/../.." && pwd)
program=$1
page=${2:-$top/README.md}
work=$(mktemp -d) || exit 1
trap 'rm -rf "$work"' EXIT
port=$(python3 -S -c 'import socket; s = socket.socket(); s.bind(("127.0.0.1", 0)); print(s.getsockname()[1])') || exit 1

# what the commands name beside the program
mkdir "$work/in" "$work/bin"
ln -s "$top/registries" "$top/examples" "$work/in/"
ln -s "$program" "$work/bin/droid_desk"
{
    # what bash has to do beside: say which command failed, and wait for commands in the background
    echo "trap 'echo \"failed with status \$?: \$BASH_COMMAND\"' ERR"
    awk '/^    / { if (!inside) is_output = substr($0, 5, 1) == "\""; inside = 1
                   if (!is_output) print substr($0, 5); next }
         { inside = 0 }' "$page" | grep -vE '^(git|cd|make) ' |
        sed "s#\(\./\)\{0,1\}out/release/droid_desk#$program#g; s/4711/$port/g"
    echo 'for job in $(jobs -p); do wait "$job"; done'
} >"$work/commands"

cd "$work/in" || exit 1
PATH=$work/bin:$PATH timeout 60 bash <"$work/commands" >"$work/printed" 2>&1
status=$?
problem=
[ "$(wc -l <"$work/commands")" -gt 4 ] || problem="$problem no commands;"
[ "$status" = 0 ] || problem="$problem ended with status $status;"
! grep -qE 'fault:|^failed with status|[Cc]ommand not found|[Ss]yntax error' "$work/printed" || problem="$problem a command failed;"
sed -n 's/.*&& echo "\{0,1\}\([^"]*\)"\{0,1\}$/\1/p' "$work/commands" >"$work/echoes"
while read -r text; do
    grep -qxF "$text" "$work/printed" || problem="$problem $text is not printed;"
done <"$work/echoes"
! grep -q submitted.csv "$page" || { [ -s deposit.csv ] && cmp -s deposit.csv submitted.csv; } || problem="$problem submitted.csv is not deposit.csv;"
if [ -n "$problem" ]; then
    echo "${page#"$top"/}:$problem"
    cat "$work/commands" "$work/printed"
    exit 1
fi
echo "${page#"$top"/}: $(($(wc -l <"$work/commands") - 2)) lines pasted, passed"
