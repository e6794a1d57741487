# What the scripts of the examples share, for them to source: the archive that they link, and the test that a program prints paper 01's L1.
# Sourced, it goes to the repository's top; every path of the scripts starts there.
set -euo pipefail
cd "$(dirname "${BASH_SOURCE[0]}")/.."
. tools/kit.sh

built=target/examples
expected=crates/list/stdout

# prints_L1 COMMAND...: prints the listing if the command does, to the letter, and fails with the difference if not
prints_L1() {
    "$@" | diff $expected - >&2
    cat $expected
}
