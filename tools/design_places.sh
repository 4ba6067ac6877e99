#!/usr/bin/env bash
# Lists the lines that docs/DESIGN-PASS.md counts:  tools/design_places.sh POINT [TREE]
# POINT is 1 to 8, TREE a checkout (this one if none is given). What the lines mean is said on that page.
set -eu
point=$1
cd "${2:-$(dirname "$0")/..}"
code() { grep -rnE --include='*.rt' "$@" crates/*/src | grep -vE ':[0-9]+: *//' || true; }
case $point in
    1) # numbers that stand for kinds, flags, and enums
        code '(const|static) [A-Z_]+: u8\b'
        code '\b(class|classes|kind|number|first|second): (u8|&\[u8\])'
        code 'fn [a-z_]+.*-> (u8|bool)( \{|;)?$'
        code '^ *(pub(\([a-z]+\))? )?enum '
        ;;
    2) # names that more than one function or type has, with what they are
        code -o '(fn|struct|enum|trait) [A-Za-z_]+' | sed -E 's/^[^:]*:[0-9]+://' | sort | uniq -d | while read -r item; do
            code "$item\b"
        done
        ;;
    3) # loops
        code '\b(while|loop)\b|\bfor [^<]+ in\b'
        ;;
    4) # casts, cases that are wrapped again, conversions and printing
        code ' as (u8|u16|u32|u64|usize|i32|i64)\b'
        code '(None|Err\([a-z_]+\)|Ok\([a-z_]+\)|Some\([a-z_]+\)) => '
        code 'format!|print!|println!|to_string|impl.* From<|impl.*Display|impl.*PartialEq'
        ;;
    5) # what is asked of a caller, and what travels together
        code 'requires'
        code 'ghost [a-z]+: \{'
        code '(height|allowed|slots|rest|table|place): '
        ;;
    6) # lengths and places beside what they measure, arrays, indices
        code '^ *(pub )?(count|used|place|length|entries|saved|room|number|first|second|third|next): (u8|u16|usize)'
        code '\[[A-Za-z0-9_]+; [A-Za-z0-9_]+\]'
        code '[a-z_]\[[a-z0-9_.+ -]+\]'
        ;;
    7) # traits of one function, tables of functions, types that stand for functions
        code '^ *(pub )?trait |\bdyn\b|impl Fn|\bfn\(|::<[A-Z][a-z]+>\('
        ;;
    8) # answers in proof files, and lines of proof
        grep -rnE '^pub [^:]+ : goal\.' crates/*/proofs || true
        ;;
    *) echo "usage: tools/design_places.sh POINT [TREE]" >&2; exit 2 ;;
esac
