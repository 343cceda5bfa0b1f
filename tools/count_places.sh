#!/bin/sh
# Counts the places that docs/DESIGN-PASS.md tells of, heading by heading: sh tools/count_places.sh [-l], -l lists them. Run at the top.
src=$(ls crates/*/src/*.rt)
show() { # heading, what, lines
    printf '%s: %s: %s\n' "$1" "$2" "$(printf '%s' "$3" | grep -c .)"
    [ "$list" = 1 ] && printf '%s\n' "$3"
}
[ "$1" = -l ] && list=1
show numbers 'numbers for kinds, refusals and none' "$(grep -nE '\b(code|number|driven|step): *(u8|usize)\b|-> u8$|Result<[A-Za-z]+, (u8|u16|usize|bool)>' $src)"
show twins 'names of functions that stand more than once in a crate' "$(for c in crates/*/; do grep -hoE '^ *(pub(\([a-z]+\))? )?fn [a-z_]+' ${c}src/*.rt | sed 's/.*fn //' | sort | uniq -d | sed "s,^,$c ,"; done)"
show loops 'loops that count an index' "$(grep -nE '\bfor [a-z_]+ in [0-9a-z]*\.\.|\bwhile\b|\bloop \{' $src)"
show by-hand 'equality, conversion and printing by hand' "$(grep -nE 'fn (is|code|from_code|symbol|name|from)\(| as (u8|u32|usize)\b|\.symbol\(\)|impl .*Display for' $src)"
show together 'clauses that stand three times or more in a crate' "$(for c in crates/*/; do grep -hE '^ *(requires|ensures) ' ${c}src/*.rt | sed 's/^ *//; s/L\.Level/L/g' | sort | uniq -c | awk '$1>2' | sed "s,^,$c ,"; done)"
show together 'functions over a kind and two letters, a code or kind and two numbers, a table and its size' "$(grep -nzoE 'fn [a-z_]+(<[^>]*>)?\([^)]*(kind: PartKind,\s*a: |code: u8, a: |leaves: &\[L\], (work|before))[^)]*\)' $src | tr '\0' '\n' | grep -E 'fn [a-z_]+')"
show rows 'lengths beside buffers, rows by number, operands that may be unused' "$(grep -nE '^ *(pub(\([a-z]+\))? )?(limit|first|second|node|driven|last_target|value|step|statement|signal): (u32|usize),' $src)"
show switches 'function pointers, dyn, and matches on which step to run' "$(grep -nE '\bfn\(|\bdyn ' $src)"
show proofs 'answers in proofs/' "$(grep -nE '^pub [a-z_0-9A-Z-]+ : goal\.' $(find crates -path '*/out' -prune -o -path '*/proofs/*/Answers.antt' -print))"
exit 0
