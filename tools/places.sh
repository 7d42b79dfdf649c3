#!/bin/sh
# Lists the lines of src/ that the eight points of docs/DESIGN-PASS.md are looked for in. Usage: tools/places.sh COMMIT
c=${1:-HEAD}
look() { # point, pattern
    echo "== point $1: $(git grep -hE "$2" "$c" -- 'crates/*/src/*.rt' | wc -l) lines"
    git grep -nE "$2" "$c" -- 'crates/*/src/*.rt'
}
look 1 '^ *(pub(\([a-z]+\))? )?enum |-> \(?(bool|u8)\b|, or 0\b|or 0 and 0|0 where|\{ Some\(.*\) \} else \{ None \}|None => (Err|None|return)|Err\(_\) =>|Ok\(next\) =>'
look 3 '^ *(.[a-z]+: )?(for|while|loop)\b'
look 4 '^impl.* (Clone|Copy|PartialEq|Eq|Ord|PartialOrd|Debug|Default|From|TryFrom|Display)\b.* for |fn (duplicate|stored|number_of|push_digits|digits|number|word|answer_of|no_[a-z]+|never_released|[a-z]+_line)\b|fn is_between|: Proposal = |let (nothing|none|row|entry|placed|all|proposal) = ?'
look 5 '^ *requires'
look 6 '\[[A-Za-z0-9<>()_]+; [A-Za-z0-9_]+\]|len: usize|Bounded<|: &\[[A-Z]'
look 7 'match \(|match call|\bFn(Mut|Once)?\(|\bdyn\b|: fn\('
a=$(git ls-tree -r --name-only "$c" crates | grep '/proofs/.*Answers\.antt$')
echo "== point 8: $(echo "$a" | wc -l) files of answers with $(for f in $a; do git show "$c:$f"; done | grep -cE '^pub [^ ]+ : goal') answers"
for f in $(echo "$a"); do echo "$f"; done
