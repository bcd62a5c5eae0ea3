#!/usr/bin/env bash
# Shows that code outside vi_turns which makes a `Closed` doesn't compile. It stands outside the gate, since no test can
# want code that is refused. It works on a copy and changes nothing here.
set -eu
here=$(cd "$(dirname "$0")/.." && pwd)
copy=$(mktemp -d)
trap 'rm -rf "$copy"' EXIT
mkdir -p "$copy/crates/outside/src"
cp "$here/HANDLES" "$copy/"
# vi_turns, the crates below it, and one crate more, which takes the private part of another Closed.
below() { sed -n "s/^$1\( [a-z]*\)\?: //p" "$here/crates.txt" | tr ' ' '\n' | grep '^vi_' || true; }
need=vi_turns
while :; do
    more=$(for crate in $need; do echo "$crate"; below "$crate"; done | sort -u)
    [ "$more" = "$need" ] && break
    need=$more
done
for crate in $need; do
    cp -r "$here/crates/$crate" "$copy/crates/"
    grep "^$crate:" "$here/crates.txt" >> "$copy/crates.txt"
done
echo 'outside: vi_turns' >> "$copy/crates.txt"
cat > "$copy/crates/outside/src/lib.rt" <<'R'
//! It must not compile.
#![tactic(auto)]

use vi_turns::Closed;

pub fn forged(one: Closed, other: Closed) -> Closed {
    Closed {
        control: one.control,
        pages: one.pages,
        log: one.log,
        last: other.last,
    }
}
R
cd "$copy/crates/outside"
if rt check > "$copy/log" 2>&1; then
    echo "a Closed was made outside"
    exit 1
fi
if ! grep -q 'error\[private-field\]: field `last` of struct `Closed` is private' "$copy/log"; then
    cat "$copy/log"
    exit 1
fi
echo "refused, as it must be: the field is private"
