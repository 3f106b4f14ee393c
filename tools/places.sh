#!/bin/sh
# Prints the candidates that docs/DESIGN-PASS.md counts places among, for the crates of the checkout that it is run in.
# Usage, at the top of a checkout: sh tools/places.sh

files=$(ls crates/*/src/*.rt | grep -v '/tests\.rt$')

show() {
    echo "== $1"
    shift
    grep -nE -- "$1" $files || true
}

show "1a enums of our own" '^ *(pub )?enum '
show "1b answers that are a flag, or hold one" '-> .*(\bbool\b|\(Option)'
show "1c numbers of refusals" 'fn (number|place)\b'
show "2 functions, to be read in pairs" '^ *(pub |pub\(crate\) )?fn '
show "3 loops" '^ *(while|loop|for) '
show "4a conversions by as" '\bas (u8|u16|u32|u64|usize)\b'
show "4b printing" 'write(ln)?!|print(ln)?!'
show "4c matches that hand on" 'Err\(_\) =>|Err\(fault\) =>|Ok\(_\) =>'
show "4d values of zeros" '^ *[a-z]+: 0,$|\b(tick|weighed|first): 0,'
show "5a a clause on what was printed" 'string_bytes out\.new ≡ string_bytes out\.old'
show "5b settings and standing" 'settings: &Settings|(track|was): Standing'
show "5c window and tick" '\b(window|at): u64'
show "5d line and tally" 'line: &mut HeldLine|tally: &mut Tally'
show "5e the view of a held line" '\bheld (self|line|result)'
show "6a arrays" '\[[A-Za-z0-9_:]+; [A-Za-z0-9_]+\]'
show "6b lengths beside" '^ *(pub |pub\(crate\) )?(len|n|c): usize'
show "7 choices among steps" '\bfn\(|dyn |Box<|impl Fn|match self'

echo "== 8 answers, files of answers, files of invariants, lines of lemmas"
git ls-files 'crates/*/proofs/*' | grep '/Answers\.antt$' | xargs cat | grep -c '^pub '
git ls-files 'crates/*/proofs/*' | grep -c '/Answers\.antt$'
git ls-files 'crates/*/proofs/*' | grep -c '/Invariants\.antt$'
git ls-files 'crates/*/proofs/*' | grep -E '^crates/[a-z]+/proofs/[A-Za-z]+\.antt$' | xargs cat | wc -l
