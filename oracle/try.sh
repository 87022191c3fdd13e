#!/bin/sh
# try.sh 'js text'      what the Rust said, and what the library has to say
D=$(dirname "$0")/target/release
O=$(mktemp -d)
"$D/tok" -e "$1" "$O/x" && echo "the Rust:" && "$D/oracle" "$O/x.tok" "$O/x.txt"
echo "expected:" && "$D/expect" "$O/x.tok" "$O/x.txt" | grep -v '^\(module\|bytes\|text\|token\|ends\|end\)\b'
rm -r "$O"
