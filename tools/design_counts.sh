#!/bin/sh
# Counts in src/ the places that docs/DESIGN-PASS.md speaks of. usage: sh tools/design_counts.sh [CHECKOUT]
cd "${1:-$(dirname "$0")/..}" || exit 1
files=$(find crates -path '*/src/*.rt' -not -path '*/out/*' | sort)
count() { printf '%-66s %s\n' "$1" "$(cat $files | grep -cE "$2")"; }
refusing='Must|Look|Got|Out|Items|Part|Numeral|Run|Seen|Atom|Prefix|Postfix|StatementHead|StepHead|LetHead|ClassHead|ItemHead'
count '1a cases of own enums that are a refusal'                   '^    (Failed|Halted|Refused|Wrong|Bad|Broken)( \{ refusal: Refusal, at: Place \},$| \{$)'
count '1b cases of own enums that hold nothing (None)'             '^    (Unknown|Nothing|End|Absent),$'
count '1c a refusal matched, made or handed on, case by case'      "($refusing)::(Failed|Halted|Refused|Wrong|Bad|Broken)"
count '1d an answer taken apart by let .. else, to hand it on'     'let (Got|Must)::(Read|Taken)'
count '1e functions that answer a number for none'                 '^ *(pub )?fn (byte|hex|letter|digit|bit|word|slot_at|head_at|rest_at|sequence|int_end|float_end|plain_string_end|plain|plain_[a-z]+|sign_of|strength_of|width_of|fill)\(.*-> (u32|u64|usize|isize)'
count '1f a kind, a role, a word, an operator told by a number'    '(kind|role|k|op|sign) (==|!=) [0-9]+|match (kind|role|k|op|sign) \{'
count '1g a flag or a count with an answer beside it'              '^pub struct (Reduced|Step|Size|Lead|Answer)\b'
count '3  loops: while, loop'                                      '^ *(while\b|loop \{)'
count '3  of these with an index that the loop counts itself'      '^ +[a-z]+ (\+|-)= [0-9]+;'
count '3  loops: for, iterator methods'                            '^ *for\b|\.(iter|position|all|any|zip|starts_with|contains)\('
count '4  conversions by hand: number, of, pack, unpack, low ..'   '^ *(pub )?fn (number|of|pack|unpack|low|high|whole)\('
count '5a clauses on a place, a length, what may be called'        'requires.*(Stands text|length text.now (≤ 65535|< 2 \^ 31)|Ready|Begun|Room|MayRead|MayGoOn)'
heads() { cat $files | grep -vE '^ *//' | tr '\n' ' ' | grep -oE 'fn [a-z_0-9]+(<[^>]*>)?\([^()]*\)'; }
many() { printf '%-66s %s\n' "$1" "$(heads | grep -E "$2" | awk '{ if (gsub(/: /, ": ") >= '"$3"') n++ } END { print n + 0 }')"; }
many '5b functions with six parameters or more'                    '' 6
many '5c functions that take pool, limit and tally apart'          'pool: .*cap: .*: (&mut )?Tally' 0
count '6  a buffer with the place in it beside'                    'fn .*out: &mut \[u8\], at: usize|^    out: &mut \[u8\],$'
count '7  switches on which step to run'                           'match (mode|naming|form) \{'
count 'functions'                                                  '^ *(pub )?fn '
count 'lines of src/'                                              ''
