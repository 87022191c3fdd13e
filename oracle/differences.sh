#!/bin/sh
# differences.sh     for each input of ../docs/DIFFERENCES.md the lines that differ: `<` the Rust's, `>` the expected
D=$(dirname "$0")/target/release
O=$(mktemp -d)
trap 'rm -r "$O"' EXIT
show() {
    printf '== %s\n' "$1"
    "$D/tok" -e "$1" "$O/x"
    "$D/oracle" "$O/x.tok" "$O/x.txt" >"$O/rust"
    "$D/expect" "$O/x.tok" "$O/x.txt" | grep -v '^\(module\|bytes\|text\|token\|ends\|end\) *' >"$O/ours"
    diff "$O/rust" "$O/ours" | grep '^[<>]'
}
show 'import x from "m"; export {x}'
show 'import source from, {a} from "m";'
show 'import source from, * as a from "m";'
show 'import source from, 1'
show 'import source x from "m"; export {x}'
show 'export {let};'
show 'import a = b;'
show 'export import a from "m";'
show 'export import 1;'
show 'export import a = b;'
show '@d export class A {}'
show 'export @d class A {}'
show 'export default \u0061sync function f() {}'
show 'export default \u0061bstract class A {};'
show 'export default \u0069nterface;'
show 'export default async
function f() {}'
show 'export default async
function f() {};'
show 'export default async
function f() {} 1;'
show 'import {'
show 'a'
show 'export {a as default}; export default 1;'
show 'import defer * as n from "m";'
show 'import source from from "m"; export {from as default}; export default 1;'
