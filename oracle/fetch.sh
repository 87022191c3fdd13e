#!/bin/sh
# fetch.sh DIR            copies the eight published files from DIR, an unpacked oxc_parser 0.156.0, byte for byte
# fetch.sh --check DIR    compares them instead; silent where they are the same
# EDITS below lists every edit of the published text, one `FILE: what` to a line. There is none.
set -e
here=$(cd "$(dirname "$0")" && pwd)
files="js/module.rs module_record.rs cursor.rs lexer/kind.rs lexer/token.rs modifiers.rs context.rs diagnostics.rs"
EDITS=""
do=cp
if [ "$1" = --check ]; then do=cmp; shift; fi
[ -d "$1/src" ] || { sed -n 2,4p "$0"; exit 2; }
for f in $files; do
    $do "$1/src/$f" "$here/oxc_parser/src/$f"
done
[ -z "$EDITS" ] || echo "$EDITS"
(cd "$here/oxc_parser/src" && sha256sum -c ../published.sha256 --quiet)
