#!/usr/bin/env bash
# The archive of tools/release.sh (wheel.sh tests the wheel), made of the program: twice the same,
# unpacked where nobody can write, used by another user without a toolchain, installed and taken out
# again.
. "$(dirname "$0")/common.sh"

for command in git tar gzip sha256sum find; do
    needs "$command" "the archive" || exit 0
done
if ! git -C "$top" rev-parse HEAD >/dev/null 2>&1; then
    skipped "the archive" "this is no clone, or git does not read it"
    exit 0
fi
chmod 755 "$temp"
"$top/tools/release.sh" --draft --to "$temp/one" "$program" >"$temp/out" 2>"$temp/err"
status=$?
archive=$(sed -n 1p "$temp/out")
version=$("$program" --version | sed -n '1s/^council //p')
if [ "$status" -eq 0 ] && [ "$archive" = "$temp/one/council-$version-x86_64-linux.tar.gz" ]; then
    ok "the archive is made, and named by the version of the program"
else
    failed "the archive is made, and named by the version of the program" "status $status: $(head -n 2 "$temp/err" "$temp/out" | tr '\n' '/')"
    exit
fi
(umask 077 && "$top/tools/release.sh" --draft --to "$temp/two" "$program" >/dev/null 2>&1)
if cmp -s "$archive" "$temp/two/$(basename "$archive")"; then
    ok "two archives are the same bytes"
else
    failed "two archives are the same bytes" "they differ"
fi
mkdir -p "$temp/elsewhere/here"
(cd "$temp" && CDPATH=$temp/elsewhere "$top/tools/release.sh" --draft --to here "$program") >"$temp/out" 2>&1
name="an archive in a folder of the folder at hand, with CDPATH"
if [ "$(sed -n 1p "$temp/out")" = "$temp/here/${archive##*/}" ] && cmp -s "$temp/one/SHA256SUMS" "$temp/here/SHA256SUMS"; then
    ok "$name"
else
    failed "$name" "$(tail -n 1 "$temp/out")"
fi
for command in cut find python3; do
    without "$command" "$top/tools/release.sh" --draft --to "$temp/none" "$program"
    sed -i 's/^tools.release.sh:/council:/' "$temp/err"
    refused "no archive without $command" 1 "the command $command was not found"
done
if (cd "$temp/one" && sha256sum -c SHA256SUMS >/dev/null 2>&1); then ok "SHA256SUMS"; else failed "SHA256SUMS" "$(cat "$temp/one/SHA256SUMS")"; fi
if tar tvzf "$archive" | grep -vqE '^(drwxr-xr-x|-rwxr-xr-x|-rw-r--r--|lrwxrwxrwx) 0/0 '; then
    failed "owners and modes in the archive" "$(tar tvzf "$archive" | grep -vE '^(drwxr-xr-x|-rwxr-xr-x|-rw-r--r--|lrwxrwxrwx) 0/0 ' | head -n 1)"
else
    ok "owners and modes in the archive"
fi

# without --draft, what is not proved and committed is refused
mkdir -p "$temp/clone"
cp -r "$top/tools" "$temp/clone/"
mkdir -p "$temp/clone/crates/council/out"
cp "$program" "$temp/clone/crates/council/out/council"
(cd "$temp/clone" && git init -q && git add tools && git -c user.name=a -c user.email=a@example.org commit -qm one) >/dev/null 2>&1
"$temp/clone/tools/release.sh" --to "$temp/three" >"$temp/out" 2>"$temp/err"
status=$?
if [ "$status" -eq 1 ] && [ ! -e "$temp/three" ]; then
    ok "no archive of a program that was not built there"
else
    failed "no archive of a program that was not built there" "status $status: $(cat "$temp/out" "$temp/err" | head -n 1)"
fi

# ---- used by another user, with only the commands of the system
here=$temp/there/${archive##*/}
here=${here%.tar.gz}
mkdir "$temp/there" "$temp/home"
tar xzf "$archive" -C "$temp/there"
chmod -R a-w "$temp/there"
if [ "$(id -u)" -ne 0 ]; then
    as_user() { env -i PATH=/usr/bin:/bin HOME="$temp/home" LC_ALL=C.UTF-8 "$@"; }
elif command -v setpriv >/dev/null; then
    chown 65534:65534 "$temp/home"
    as_user() { setpriv --reuid=65534 --regid=65534 --clear-groups env -i PATH=/usr/bin:/bin HOME="$temp/home" LC_ALL=C.UTF-8 "$@"; }
else
    skipped "the archive, used by another user" "this machine has no setpriv, and the tests run as root"
    exit
fi
if ! as_user test -r "$here/README.md"; then
    skipped "the archive, used by another user" "the folder for temporary files is not open to it"
    exit
fi
if as_user sh -c 'command -v rt' >/dev/null; then skipped "without a toolchain" "it is in /usr/bin or /bin"; fi

# run_there NAME WANTED WORD..: whether the program prints the file WANTED on these words, in the
# folder of the archive.
run_there() {
    local name=$1 wanted=$2
    shift 2
    (cd "$here" && as_user timeout "$seconds" "$@") >"$temp/out" 2>"$temp/err" </dev/null
    status=$?
    printed "$name" "$wanted"
}
for game in "$here"/examples/*.toml "$here"/examples/*.txt; do
    run_there "in the archive, example ${game##*/}" "${game%.toml}.tsv" ./council "examples/${game##*/}"
done
if as_user sh -c 'command -v python3' >/dev/null; then
    "$top/tools/council-tools" table "$top/examples/eec-1958.tsv" >"$temp/wanted"
    (cd "$here" && as_user ./council examples/eec-1958.toml | as_user bin/council-tools table) >"$temp/out" 2>"$temp/err"
    status=$?
    printed "in the archive, council-tools table" "$temp/wanted"
    # it finds the program of the archive
    name="in the archive, council-tools sweep"
    (cd "$temp/home" && as_user "$here/bin/council-tools" sweep --from 12 --to 12 "$here/examples/eec-1958.toml") >"$temp/out" 2>"$temp/err"
    if grep -qP '^12\tGermany\t0.208333\t0.200000\t5/24\t1/5$' "$temp/out" && [ ! -s "$temp/err" ]; then ok "$name"; else failed "$name" "$(head -n 1 "$temp/err")"; fi
else
    skipped "in the archive, council-tools" "/usr/bin and /bin have no python3"
fi
if command -v man >/dev/null; then
    name="in the archive, the manual page"
    (cd "$here" && as_user man -P cat docs/council.1) >"$temp/out" 2>"$temp/err" </dev/null
    if grep -q 'power indices of a weighted voting game' "$temp/out"; then ok "$name"; else failed "$name" "$(head -n 1 "$temp/err")"; fi
else
    skipped "in the archive, the manual page" "this machine has no man"
fi
name="in the archive, the library for other languages"
if [ ! -f "$here/lib/libcouncil.a" ]; then
    skipped "$name" "there was none of these sources: tools/build.py --library makes it"
elif needs cc "$name"; then
    cc -I"$here/include" -o "$temp/report" "$top/tests/foreign/report.c" "$here/lib/libcouncil.a" >"$temp/err" 2>&1 &&
        timeout "$seconds" "$temp/report" <"$here/examples/board.toml" >"$temp/out" 2>>"$temp/err"
    status=$?
    printed "$name" "$here/examples/board.tsv"
fi
shared=$here/lib/libcouncil.so
name="in the archive, the shared object"
if [ -f "$shared" ] && needs nm "$name: its calls"; then
    found=$(nm -D --defined-only "$shared" | grep -v ' w ' | sed 's/.* //' | sort | tr '\n' ' ')
    declared=$(sed -n 's/^[a-z0-9_]* \(council_[a-z_]*\)(.*/\1/p' "$here/include/council.h" | sort | tr '\n' ' ')
    if [ "$found" = "$declared" ]; then ok "$name: it exports its calls"; else failed "$name: it exports its calls" "$found"; fi
fi
if [ -f "$shared" ] && needs objdump "the C library that programs need"; then
    for file in council lib/libcouncil.so; do
        newest=$(objdump -T "$here/$file" | grep -o 'GLIBC_[0-9.]*' | sort -Vu | tail -n 1)
        if [ "$(printf '%s\n' "$newest" GLIBC_2.34 | sort -V | tail -n 1)" = GLIBC_2.34 ]; then ok "$file needs no newer C library than 2.34"; else failed "$file needs no newer C library than 2.34" "$newest"; fi
    done
fi
if [ -f "$shared" ] && needs cc "$name: linked" && needs pkg-config "$name: linked"; then
    # shellcheck disable=SC2046
    PKG_CONFIG_PATH=$here/lib/pkgconfig cc -o "$temp/linked" "$top/tests/foreign/report.c" $(PKG_CONFIG_PATH=$here/lib/pkgconfig pkg-config --cflags --libs council) >"$temp/err" 2>&1 &&
        LD_LIBRARY_PATH=$here/lib timeout "$seconds" "$temp/linked" <"$here/examples/board.toml" >"$temp/out" 2>>"$temp/err"
    status=$?
    printed "$name: linked by pkg-config" "$here/examples/board.tsv"
fi

# links of documents to files that only a clone has are no fault there, but those of its README and
# of LIBRARY.md lead somewhere
name="in the archive, its own links lead to files"
missing=$(
    for page in README.md docs/LIBRARY.md docs/LANGUAGES.md; do
        cd "$here/$(dirname "$page")" || exit
        grep -oE '\]\([^)#:]+[)#]' "${page##*/}" | tr -d '])(#' | while IFS= read -r file; do [ -e "$file" ] || echo "$page: $file"; done
    done
)
if [ -z "$missing" ]; then ok "$name"; else failed "$name" "$missing"; fi
name="in the archive, what was proved"
if grep -q "^proved with: $("$program" --version | sed -n '2s/^proved with //p')$" "$here/PROVED" && grep -q "^commit: $(git -C "$top" rev-parse HEAD)" "$here/PROVED"; then
    ok "$name"
else
    failed "$name" "$(tr '\n' '/' <"$here/PROVED")"
fi

# ---- installed and taken out
# installs NAME FOLDER DESTDIR [PREFIX]: whether install.sh puts all below the folder, and takes all
# out.
installs() {
    local name=$1 root=$2 before=DESTDIR=$3 prefix=("${@:4}")
    (cd "$temp/home" && as_user env "$before" "$here/install.sh" "${prefix[@]}") >"$temp/out" 2>"$temp/err" </dev/null
    status=$?
    if [ "$status" -ne 0 ] || ! grep -q "is installed: $root/bin/council" "$temp/out"; then
        failed "$name" "status $status: $(cat "$temp/out" "$temp/err" | tr '\n' '/')"
        return
    fi
    as_user "$root/bin/council" "$here/examples/board.toml" >"$temp/out" 2>"$temp/err"
    if ! cmp -s "$temp/out" "$top/examples/board.tsv" || [ ! -s "$root/share/man/man1/council.1" ] ||
        [ ! -s "$root/share/man/man1/council-tools.1" ] || [ ! -s "$root/share/bash-completion/completions/council-tools" ] ||
        [ ! -s "$root/share/doc/council/docs/GUIDE.md" ]; then
        failed "$name" "the program or a document is not in its place: $(head -n 1 "$temp/err")"
        return
    fi
    if as_user sh -c 'command -v python3' >/dev/null && ! as_user "$root/bin/council-tools" sweep --from 51 --to 51 "$here/examples/board.toml" >/dev/null 2>"$temp/err"; then
        failed "$name" "council-tools: $(head -n 1 "$temp/err")"
        return
    fi
    as_user env "$before" "$root/share/doc/council/install.sh" --uninstall "${prefix[@]}" >"$temp/out" 2>"$temp/err" </dev/null
    status=$?
    if [ "$status" -ne 0 ] || [ -n "$(find "$root" ! -type d 2>/dev/null)" ]; then
        failed "$name" "status $status, and these files are left: $(find "$root" ! -type d | head -n 3 | tr '\n' ' ') $(head -n 1 "$temp/err")"
    else
        ok "$name"
    fi
}
installs "installed and taken out" "$temp/home/.local" ""
installs "installed below another place" "$temp/home/a place" "" "$temp/home/a place"
installs "installed below DESTDIR" "$temp/home/root/usr" "$temp/home/root" /usr
# an archive with fewer files is installed sooner
small=$temp/small
cp -r "$here" "$small"
chmod -R u+w "$small"
find "$small/reference" "$small/examples" -type f ! -name 'board*' -delete
# holds NAME <<SCRIPT: whether each command of a script succeeds. The other user runs it in its
# home; in it `install` is install.sh.
holds() {
    local name=$1
    cat "$temp/shared.sh" - >"$temp/script.sh"
    chmod 644 "$temp/script.sh"
    (cd "$temp/home" && as_user bash -eu "$temp/script.sh" "$small/install.sh") >"$temp/out" 2>"$temp/err" </dev/null
    status=$?
    if [ "$status" -eq 0 ]; then ok "$name"; else failed "$name" "status $status: $(tail -qn 2 "$temp/out" "$temp/err" | tr '\n' '/')"; fi
}
cat >"$temp/shared.sh" <<'END'
install=$1
install() { "$install" "$@"; }
# has FOLDER LINE..: whether a folder holds these files and folders, and no others.
has() { diff <(cd "$1" && find . -mindepth 1 | sort) <(printf './%s\n' "${@:2}" | grep -v '^./$' | sort); }
# fails TEXT COMMAND..: whether a command fails, and says this.
fails() { if "${@:2}" 2>err; then false; else grep -qF -e "$1" err; fi; }
# full KIB: an install in e where no file can have more bytes, as on a full disk.
full() { if (trap '' XFSZ; ulimit -f "$1"; install e); then false; fi; }
END
holds "a file of another stays" <<'END'
mkdir -p a/bin; echo other >a/bin/other
install a; install a; install --uninstall a
has a bin bin/other
END
holds "folders of another stay" <<'END'
mkdir -p b/bin b/share/man
install b; install b; install --uninstall b
has b bin share share/man
END
holds "what an earlier version installed goes" <<'END'
install c
doc=c/share/doc/council
mkdir $doc/older; echo old >$doc/OLD; echo old >$doc/older/it
{ echo share/doc/council/OLD; echo share/doc/council/older/it; grep -v '/$' $doc/FILES; } >list; mv list $doc/FILES
install c; [ ! -e $doc/OLD ]; [ ! -e $doc/older ]
install --uninstall c; [ ! -e $doc ]; [ -z "$(find c -type f)" ]
END
for size in 0 8; do
    holds "a disk that is full after $size KiB" <<END
full $size; install e; install --uninstall e; has e
full $size; install --uninstall e; has e
install e; full $size; install --uninstall e; has e
END
done
holds "an install that is killed is taken out" <<'END'
mkdir tools
for step in mkdir cp chmod mv; do
    # the command, and then the end of whoever called it, except for the folder PREFIX itself
    printf '#!/bin/sh\n/bin/%s "$@"; [ "$1" = -p ] || kill -9 $PPID\n' $step >tools/$step
    chmod 755 tools/$step
    if PATH=$HOME/tools:$PATH install m; then false; fi
    rm tools/$step
    [ -n "$(find m -mindepth 1)" ]; install --uninstall m; has m
done
END
holds "several installs at once" <<'END'
for _ in 1 2 3; do install n & done
for job in $(jobs -p); do wait $job; done
[ -x n/bin/council ]; install --uninstall n; has n
END
holds "a standard output that is closed or full" <<'END'
install o >&-; install o | true; [ "${PIPESTATUS[0]}" -eq 0 ]
[ ! -e /dev/full ] || install o >/dev/full
[ -x o/bin/council ]; install --uninstall o >&-; has o
END
holds "lines of FILES that are not its own are ignored" <<'END'
install f; mkdir g; echo >g/it; echo >f/bin/other
files=f/share/doc/council/FILES
{ printf '%s\n' '' / ../ ../g/it "$HOME/g/it" bin/../../g/it bin/other .; cat $files; } >list; mv list $files
install f; install --uninstall f; has f bin bin/other; has g it
install f; : >$files; install f; install --uninstall f; [ ! -e f/bin/council ]
END
holds "a folder in place of a file stays" <<'END'
mkdir -p h/bin/council
fails "h/bin/council is a folder: nothing is installed" install h; has h bin bin/council
rmdir h/bin/council; install h; rm h/share/man/man1/council.1; mkdir h/share/man/man1/council.1
install --uninstall h 2>err; grep -q 'council.1 is a folder, and stays' err
has h share share/man share/man/man1 share/man/man1/council.1 bin
END
holds "a DESTDIR that does not begin with /" <<'END'
DESTDIR=i install /usr; [ -x i/usr/bin/council ]; [ -s i/usr/share/doc/council/docs/GUIDE.md ]
DESTDIR=i/ install --uninstall /usr/; has i usr
END
holds "an empty PREFIX, and no HOME" <<'END'
fails 'name a PREFIX' install ''; export -n HOME; fails 'name a PREFIX' install
fails 'name a PREFIX' install --uninstall
END
holds "a PREFIX with / at the end" <<'END'
[ "$(PATH=$HOME/j/bin:$PATH install "$HOME/j//")" = "council is installed: $HOME/j/bin/council" ]
install j | grep -qF "$HOME/j/bin is not on the PATH"
END
holds "a PREFIX that could move a terminal" <<'END'
install $'k\033[2J\302\233m' >out
grep -qF "council is installed: $HOME/k [2J m/bin/council" out; [ "$(wc -l <out)" -eq 2 ]
END
holds "what is installed is for all users" <<'END'
umask 077; install l; [ -x l/bin/council ]; [ -z "$(find l ! -perm -044 -o -type d ! -perm -055)" ]
END
holds "what is not installed is not taken out" <<'END'
fails 'nothing is installed' install --uninstall nowhere
END
name="words that install.sh does not know"
wrong=
for words in "/usr --uninstall" "--help" "--uninstall -x" "one two" "--uninstall one two"; do
    # shellcheck disable=SC2086
    (cd "$temp/home" && DESTDIR=$temp/home/none as_user "$here/install.sh" $words) >"$temp/out" 2>"$temp/err"
    status=$?
    [ "$status" -eq 2 ] && grep -q '^usage: ' "$temp/err" || wrong="$wrong; $words: status $status"
done
if [ -z "$wrong" ] && [ ! -e "$temp/home/none" ] && [ ! -e "$temp/home/one" ]; then ok "$name"; else failed "$name" "${wrong#; }"; fi
