#!/usr/bin/env bash
# Counts, at a commit, the lines of src/ where a place of each form can stand: tools/forms/count.sh [COMMIT]
# With -l before the commit it prints the lines. docs/DESIGN-PASS.md says which of them are places.
cd "$(git rev-parse --show-toplevel)" || exit 1
list=0; [ "$1" = -l ] && { list=1; shift; }
rev=${1:-HEAD}
src=':(glob)crates/*/src/**/*.rt'
lines() { # NAME PATTERN [PATTERN-TO-LEAVE-OUT]
    found=$(git grep -nE "$2" "$rev" -- "$src" | sed "s/^$rev://" | grep -vE "${3:-^$}")
    printf '%-34s %s\n' "$1" "$(printf '%s' "$found" | grep -c .)"
    [ $list = 1 ] && [ -n "$found" ] && printf '%s\n' "$found" | sed 's/^/    /'
}
lines '1 enums'                        '^(pub |pub\(crate\) )?enum '
lines '1 derives without equality'     'derive\(Clone, Copy\)'
lines '1 bool for done or refused'     'fn (emit|push|add|add_described|move_args)\b.*-> bool'
lines '1 flag for a kind'              '^ +(pub )?[a-z_]+: bool,'
lines '1 number for a refusal or kind' 'Result<[^<>]*(<[^<>]*>)?, u8>|(kind|mark): u8,'
lines '1 shape of Option: Other'       '\b(Expr|Command)::Other\b|^    Other,$'
lines '2 twins by name'                'fn (name_len|number_len|in_name|in_number|is_letter|byte|short|added|subtracted|multiplied|equal|less|both|either|sum|product|opposite|negated|minus|not|add|sub|mul|and|or|through_chain|through_display|judge_over_chain|judge_over_display|chain_report|display_report|chain_refusal|display_refusal|dirty_numbers|dirty_slots|done|holds|counts|as_value|as_variable|as_function|as_procedure|check_(args|data|commands|routines)|write_(args|data|commands|routines)|begins_[a-z]+|enter_[a-z]+|choice|choose|function|procedure|data|routines|names|args|unary|binary|difference|number|truth|chain|display)\('
lines '2 twin impls'                   '^impl.* for (Chain|Display)\b|^impl.* (Chain|Display)<'
lines '3 index loops'                  'for [a-z_]+ in \(?[0-9a-z_.]+\.\.|^ *while .*[<>]'  'for _ in'
lines '4 equality by hand'             '\.is\(|\.same\(|same_bytes\(|fn (is|same|alike)\('
lines '4 conversion by hand'           'fn (code|slot|value|number_of|byte|short|parts|datum_sort|routine_sort|value_of|mark_of|entry_of|decoded|encoded)\('
lines '4 order by hand'                'why\.code\(\) <|fn note\('
lines '4 printing by hand'             'fn (line|refusal_line|run_line|push_entries)\('
lines '5 fact: position'               'self\.old\.at < 65535'
lines '5 fact: room of the names'      'room names\.new'
lines '5 fact: room of the code'       'SameRoom code\.old'
lines '5 fact: the tree is kept'       'Kept tree\.old'
lines '5 fact: what a line does'       '(Gone|Lists) self\.old'
lines '5 fact: slots laid out'         'LaidOut self\.'
lines '5 together: tree'               'tree: &(mut )?Tree'
lines '5 together: names'              'names: &(mut )?Stack<Record>'
lines '5 together: least or code'      'least: Option<Refused>|code: &mut Code'
lines '6 buffers with a length'        '^    (used|count|len): (usize|u16),|^    pub count: u16,'
lines '7 tables of functions'          ': fn\(|\[fn\(|dyn Fn'
