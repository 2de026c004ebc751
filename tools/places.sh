#!/bin/sh
# The places that docs/DESIGN-PASS.md counts, one command for each kind, in the tree that this runs in.
#   tools/places.sh          how many of each kind
#   tools/places.sh -l       each place
list=$1
src() { grep -rnE "$@" --include='*.rt' crates/*/src; }
show() {
    name=$1
    shift
    if [ "$list" = -l ]; then echo "== $name"; "$@"; else printf '%-46s %s\n' "$name" "$("$@" | wc -l)"; fi
}

# 1: answers as Option and Result
passed_on() { src 'Err\([a-z_]+\) => (return )?Err\(|Err\(_\) => (return )?(None|Err)|None => (return )?(None|Err)\b'; }
let_else() { src 'let (Some|Ok)\(.*else \{$'; }
own_answers() { src '^    (Refused|Failed)(\(| \{|,)'; }
kind_numbers() { src 'fn number\(&?self\)'; }
refused_by_bool() { src 'fn (track_entry_accessed|add|push|insert|save)[a-z_]*\(.*\) -> bool'; }
# 3: loops that count an index
counted() { src 'for _?[a-z]+ in [0-9a-z_]+\.\.|\(i, |while [a-z_]+ <|number = number|next \+= 1|next = place'; }
# 4: equality, conversion and printing by hand
by_hand() { src 'fn (same|same_bytes|number|of|show|eq|cmp)\('; }
underived() { grep -rnE -A1 '^#\[derive\(' --include='*.rt' crates/*/src | grep -B1 -E '(struct|enum) ' | grep 'derive' | grep -v 'Debug'; }
# 6: buffers with a length, arrays of a fixed length
fixed() { src '\[[A-Za-z0-9]+; ?[0-9]+\]'; }
# 7: function tables and boxed calls
tables() { src '\bdyn |: fn\(|Box<'; }
# 8: proofs
proof_lines() { git ls-files -z 'crates/*/proofs/*.antt' | xargs -0 cat; }

show '1 a refusal passed on by hand' passed_on
show '1 let else that returns None or Err' let_else
show '1 own variants named as a refusal' own_answers
show '1 a number for a kind' kind_numbers
show '1 a refusal told by bool' refused_by_bool
show '3 loops that count' counted
show '4 equality, conversion, printing by hand' by_hand
show '4 derives without Debug' underived
show '6 arrays of a fixed length' fixed
show '7 dyn, boxes, function pointers' tables
[ "$list" = -l ] || show '8 lines of proofs' proof_lines
