#!/bin/sh
# A put after the close of a ring does not compile, since the close takes the end away. A must-fail
# edit has to compile, so this case is here: in a copy of the crate, a function that puts after
# the close is refused as a use of a moved value, and there is no other error.
set -u
top=$(cd "$(dirname "$0")/.." && pwd)
command -v rt >/dev/null || {
    echo "skipped put_after_close.sh: this machine has no rt"
    echo "0 passed, 0 failed, 1 skipped"
    exit 0
}
room=$(mktemp -d)
trap 'rm -rf "$room"' EXIT
mkdir "$room/crates"
cp "$top/HANDLES" "$room/"
grep -E '^(council_game|mwc_pipe)[ :]' "$top/crates.txt" > "$room/crates.txt"
for name in council_game mwc_pipe; do
    mkdir "$room/crates/$name"
    for part in src specs proofs out; do
        if [ -d "$top/crates/$name/$part" ]; then
            cp -r "$top/crates/$name/$part" "$room/crates/$name/"
        fi
    done
done
cat >> "$room/crates/mwc_pipe/src/ring_in.rt" <<'END'

pub fn puts_after_close(to: RingIn) {
    let mut to = to;
    let _closed = to.close();
    let _put = to.put(Word::Open(0));
}
END
said=$(cd "$room/crates/mwc_pipe" && rt check 2>&1)
errors=$(printf '%s\n' "$said" | grep -c ': error\[')
moved=$(printf '%s\n' "$said" | grep -c 'ring_in.rt:.*error\[borrow-e0382\].*`to`')
if [ "$errors" = 1 ] && [ "$moved" = 1 ]; then
    echo "1 passed, 0 failed"
else
    printf '%s\n' "$said" | head -5
    echo "0 passed, 1 failed"
    exit 1
fi
