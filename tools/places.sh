#!/bin/sh
# Counts the places in src/ (and, for 8, in proofs/) where an older form may stand: `sh tools/places.sh [FOLDER] [-v]`, FOLDER a checkout (this one).
# With -v the lines themselves. What is counted is looked at by a reader; docs/DESIGN-PASS.md says what became of each.
show=
for word; do if [ "$word" = -v ]; then show=-v; else folder=$word; fi; done
cd "${folder:-$(dirname "$0")/..}" || exit 2
src=$(git ls-files 'crates/*/src/*.rt')
count() {
    name=$1; shift
    if [ "$show" = -v ]; then echo "== $name"; "$@"; else printf '%5d  %s\n' "$("$@" | wc -l)" "$name"; fi
}
lines() { grep -nE "$1" $src; }
pairs() { # a requires or a parameter group in three or more functions of a crate
    for c in $(cut -d: -f1 crates.txt); do
        grep -hoE "$1" $(git ls-files "crates/$c/src/*.rt") /dev/null | sort | uniq -c | awk -v c="$c" '$1 >= 3 { print c ": " $0 }'
    done
}
count '1 an arm that only makes an Ok, an Err, a Some or a None again, or hands a refusal on' lines '^ *(Ok|Err|Some)\((\w+|_)\) => (return )?(Ok|Err|Some)\(|^ *None => (None|0),|=> unreachable'
count '1 a let .. else that answers no more than `?` would' sh -c "grep -nE -A1 'let (Ok|Some)\(.*else \{' $(echo $src) | grep -E 'return (None|Err\(Unread\)|Ok\(None\));'"
count '1 a refusal or a kind as a number' lines 'Result<[^<>]*(<[^<>]*>)?[^<>]*, u(8|16|32)>|fn (from_)?number\(|Err\([0-9]+\)'
count '1 a flag with a value beside it' lines '\((bool|Kind), |, bool\)'
count '1 a function that answers a 0 to carry a promise' lines 'fn \w+(<.*>)?\(.*\) -> u8$'
count '2 functions of one name, or one clause, in two places (`duplicates`, and reading)' sh -c "grep -hoE '^ *(pub(\(crate\))? )?fn \w+' $(echo $src) | sed -E 's/.*fn //' | grep -vxE 'new|fmt|main|map|key_count|key_value|axis_pixel_range|in_pixels|max_num_points|weight|bold_points|format|put|measure|share|answer|from|next|dim' | sort | uniq -d"
count '3 a loop over numbers' lines 'for \w+ in [^{]*\.\.[^{]*\{|\+= 1;'
count '3 a loop over items that looks for one or tests each' sh -c "grep -nE -A2 '^ *for ' $(echo $src) | grep -E 'if .*\{$'"
count '4 a conversion, a comparison or a text by hand' lines 'fn (from_)?number\(|fn (across|down|same|same_line|same_text|write_\w+|number|station|is_header)\(|refused \{number\}|char::from\('
count '4 a struct written out that is another with one field changed' sh -c "grep -nE '^ *(size|axis|turned|part|min|max|axis): self\.\w+,' $(echo $src)"
count '5 a fact in the requires of three or more functions of a crate' pairs '\((Span|Near|Within|Ends|Few|NearCuts|Cuts|stroke_ok|lettering_ok|shape_ok)[^×}]*|n ≤ 200|0 < s(tep)?|Ends lo hi|shape_ok shape ≡ true|stroke_ok stroke ≡ true|lettering_ok lettering ≡ true|grid\.0 \* grid\.1 ≤ length out\.old'
count '5 parameters that travel together, in three or more functions of a crate' pairs '\(?(lo: i32, hi: i32|n: u32, s: u32|a: i32, b: i32|xs: &\[i32\], ys: &\[i32\]|grid: \(usize, usize\)|put: u32|limits: \(i32, i32\))'
count '6 a buffer with a length beside it, or an index into another' lines '^ *(used|filled): usize,|\[0; 1002\]|usize, usize\)'
count '7 a function pointer, a dyn, a box' lines 'dyn |Box<|: fn\('
count '8 answers' sh -c "grep -hE '^pub [a-zA-Z0-9_+-]+ :' \$(git ls-files 'crates/*/proofs/*Answers.antt') /dev/null"
count '8 lines of proof' sh -c "cat \$(git ls-files 'crates/*/proofs/*.antt')"
