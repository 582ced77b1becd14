#!/usr/bin/env bash
# What policy_show says of files that it cannot read: their names and why on standard error, and no reading on standard output; and of
# names that it passes over.
set -euo pipefail
program=$("$(dirname "$0")/built.sh" policy_show)
folder=$(mktemp -d)
trap 'rm -rf "$folder"' EXIT
cd "$folder"
mkdir directory
head -c 65537 /dev/zero >long

# expect WHAT TEXT FILE: that the file has just this text.
expect() {
    diff <(printf '%s' "$2") "$3" || {
        echo "policy_show: not what was expected of $1" >&2
        exit 1
    }
}

"$program" nowhere directory long >out 2>err
expect "standard output" $'file nowhere\nfile directory\nfile long\nrefused 26\n' out
expect "standard error" $'nowhere: No such file or directory\ndirectory: Is a directory\n' err
"$program" >out 2>err <directory
expect "standard output, a directory as standard input" "" out
expect "standard error, a directory as standard input" $'standard input: Is a directory\n' err
"$program" - >out 2>err <&-
expect "standard output, no standard input" $'file -\n' out
expect "standard error, no standard input" $'standard input: Bad file descriptor\n' err
# A name over 4,096 bytes is cut, whether it is the first or a later one, and what follows it is shown.
name=$(printf '%04097d' 0)
cut=$(printf '%064d' 0)..
"$program" "$name" long "$name" long >out 2>err </dev/null
expect "standard output, long names" "file $cut"$'\nfile long\nrefused 26\n'"file $cut"$'\nfile long\nrefused 26\n' out
expect "standard error, long names" "$cut"$': File name too long\n'"$cut"$': File name too long\n' err
# A name of 4,096 bytes is shown, and names no file either.
"$program" "${name:1}" >out 2>err
expect "standard output, 4,096 bytes" "file ${name:1}"$'\n' out
expect "standard error, 4,096 bytes" "${name:1}"$': File name too long\n' err

# Of over 999 names the first 999 are shown, and it is said that there are more.
for count in 999 1000; do
    "$program" $(seq "$count") >out 2>err
    [ "$(wc -l <out)" -eq 999 ] || { echo "policy_show: not 999 of $count names" >&2; exit 1; }
    sed -i '/No such file/d' err
    more=""
    [ "$count" -eq 999 ] || more=$'the first 999 names are shown, and no others\n'
    expect "standard error, $count names" "$more" err
done
echo "policy_show names the files that it cannot read"
