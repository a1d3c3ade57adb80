# A test of `mtapi prove`, a part of `mtapi test`: that the toolchain still does what commands/prove.sh rests on. Sourced by `mtapi`.
# shellcheck shell=bash disable=SC2154 # what isn't set here is of the script that sources this

small_tree=''

# A tree whose command is a small program over a small library.
make_small_tree() {
    small_tree=$scratch/small_tree
    mkdir -p "$small_tree/.ci" "$small_tree/crates/low/src" "$small_tree/crates/$command_crate/src"
    cp -R "$top/mtapi" "$top/commands" "$top/CHANGELOG.md" "$small_tree/"
    sed 's/^further=(.*/further=()/' "$top/.ci/programs.sh" >"$small_tree/.ci/programs.sh"
    printf 'low:\n%s: low\n' "$command_crate" >"$small_tree/crates.txt"
    cat >"$small_tree/crates/low/src/lib.rt" <<'END'
//! A library with one function.
#![tactic(auto)]

ghost use Rattle.std.specs.Prelude.{◌≡◌, ◌+◌};

/// Twice a number.
pub fn twice_of(number: u32) -> u64
    ensures { result ≡ number + number }
{
    u64::from(number) + u64::from(number)
}
END
    cat >"$small_tree/crates/$command_crate/src/main.rt" <<'END'
//! Prints twice a number.
#![tactic(auto)]

use low::twice_of;
use std::io;

fn main(rt: HostRuntime) -> io::Result<()> {
    println!(rt; "twice 21 is {}", twice_of(21))
}
END
}

# Each is told with what it rests on, since a newer toolchain may do it otherwise.
try_prove() {
    local told=$1
    shift
    if (cd "$small_tree" && "$@") >>"$small_tree/told" 2>&1 </dev/null; then
        proofs_passed=$((proofs_passed + 1))
    else
        proofs_failed=$((proofs_failed + 1))
        echo "$told"
        tail -n 20 "$small_tree/told"
    fi
}

runs_proved() {
    local printed
    printed=$(./mtapi run </dev/null 2>errors)
    [ "$printed" = 'twice 21 is 42' ] && ! grep -q unproved errors
}

# Whether the second call has nothing to do, which it is to say at once.
is_done() {
    ! ./mtapi prove --command 2>&1 | grep -q 'proving '
}

is_tidy() {
    ! [ -e out/lanes ] && [ -e crates/low/out/rlib/stamp ]
}

test_prove() {
    local proofs_passed=0 proofs_failed=0
    make_small_tree
    try_prove "'prove' proves a library and a program in trees of their own, as rt lib, rt run and its log serve it" ./mtapi prove --command
    try_prove "what was proved is back at its place, with the stamp that rt leaves beside a library" is_tidy
    try_prove "the proved program runs" runs_proved
    try_prove "what was proved counts as proved" is_done
    echo "prove: $proofs_passed passed, $proofs_failed failed"
}
