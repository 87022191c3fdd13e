#!/usr/bin/env bash
# Two mistakes that the build itself refuses, before anything is proved of them: a page that is filed into a closed
# record, and a mark that is neither kept nor put back. Each is made in a copy of the repository, where the compiler
# must refuse it by the error's name. Prints a line for each.
set -euo pipefail
cd "$(dirname "$0")/.."
copy=$(mktemp -d)
trap 'rm -rf "$copy"' EXIT
cp crates.txt "$copy"
mkdir "$copy/crates"
for crate in crates/*/; do
    mkdir "$copy/$crate"
    for folder in "$crate"src "$crate"specs "$crate"proofs; do
        if [ -d "$folder" ]; then cp -R "$folder" "$copy/$folder"; fi
    done
done

# refused ERROR FILE OLD NEW: with NEW in the place of OLD in that file of module_record, its build ends with ERROR.
# `--only ''` asks for no proof: what the build refuses by itself is said all the same.
refused() {
    local error=$1 file=crates/module_record/$2 old=$3 new=$4
    python3 - "$file" "$copy/$file" "$old" "$new" <<'PYTHON'
import sys
source, target, old, new = sys.argv[1:]
text = open(source, encoding="utf-8").read()
if text.count(old) != 1:
    sys.exit(f"{source} does not have this once: {old}")
open(target, "w", encoding="utf-8").write(text.replace(old, new))
PYTHON
    if (cd "$copy/crates/module_record" && rt check --only '') >"$copy/said" 2>&1; then
        echo "not refused: $new"
        exit 1
    fi
    if ! grep -q "^$2.*error\[$error\]" "$copy/said"; then
        tail -n 5 "$copy/said"
        echo "refused, but not as $error: $new"
        exit 1
    fi
    cp "$file" "$copy/$file"
    echo "refused as $error: $new"
}

refused borrow-e0382 src/all.rt \
    'record: builder.close(text),' \
    'record: { let record = builder.close(text); for page in pages { let _ = builder.file(text, page); } record },'
refused linear-value-let-go src/record/filing.rt \
    'mark.keep();' \
    'let _ = 0;'
