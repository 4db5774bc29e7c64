#!/usr/bin/env bash
# docs/council.html and the module for Node: tools/web.sh makes the page again from the LLVM module
# that `tools/build.py --library` keeps, the page's module gives the program's bytes, and Chromium
# uses the page as a person does.
. "$(dirname "$0")/common.sh"
export PYTHONDONTWRITEBYTECODE=1
here=$top/tests/web page=$top/docs/council.html folder=$temp/package kept=$top/crates/council_c/out/council.bc

name="malloc of the module"
if needs cc "$name"; then
    cc -std=gnu11 -g -O1 -Wall -Wextra -Werror -fno-builtin -fsanitize=address,undefined -fno-sanitize-recover=undefined -o "$temp/malloc" "$here/malloc.c" 2>"$temp/err" &&
        timeout "$seconds" "$temp/malloc" >"$temp/out" 2>>"$temp/err"
    if [ "$(cat "$temp/out" 2>&1)" = ok ]; then ok "$name"; else failed "$name" "$(cat "$temp/out" "$temp/err" 2>&1 | head -n 1)"; fi
fi

name="docs/council.html is of these sources"
if ! needs python3 "$name"; then exit; fi
made=$(sed -n 's/.*name="generator" content="\([^"]*\)".*/\1/p' "$page")
if [ ! -f "$kept" ]; then
    skipped "$name" "there is no LLVM module: tools/build.py --library makes it"
elif [ "${made##* }" != "$(sha256sum <"$kept" | cut -c 1-16)" ]; then
    failed "$name" "it is of another LLVM module: run tools/web.sh --docs"
else
    "$top/tools/web.sh" --to "$temp/made" >"$temp/out" 2>"$temp/err"
    case $? in
    0)
        if cmp -s "$temp/made/council.html" "$page"; then ok "$name"; elif grep -q "content=\"$made\"" "$temp/made/council.html"; then
            failed "$name" "it differs: run tools/web.sh --docs"
        else skipped "$name" "this is another wasm-opt than that of $made"; fi
        ;;
    3) skipped "$name" "$(head -n 1 "$temp/err")" ;;
    *) failed "$name" "$(head -n 1 "$temp/err")" ;;
    esac
fi
if [ "$(wc -c <"$page")" -le 600000 ]; then ok "docs/council.html has at most 600 KB"; else failed "docs/council.html has at most 600 KB" "$(wc -c <"$page")"; fi

# what the page computes: its own module, as the one for Node
python3 "$top/tools/web.py" "$page" "$folder"
if needs node "the module"; then
    name="functions for 128 bits, of random numbers"
    node "$here/wide.mjs" "$folder/council.mjs" 1000 >"$temp/out" 2>"$temp/err"
    wrong=$(python3 -c 'import sys; print(*[it for it in sys.stdin if not eval(it)][:1])' <"$temp/out" 2>&1)
    if [ -s "$temp/out" ] && [ -z "$wrong" ]; then ok "$name"; else failed "$name" "$(head -n 1 "$temp/err") ${wrong:0:200}"; fi
    keep_rules() { cp "$temp/rules.toml" "$temp/hard$((number += 1)).toml"; }
    number=0
    each_hard_game keep_rules
    timeout 600 node "$here/module.mjs" "$folder" "$program" 300 "$top"/examples/*.{toml,txt} "$top"/docs/statutes/*.toml "$temp"/hard*.toml 2>"$temp/err" ||
        failed "the module" "$(head -n 3 "$temp/err" | tr '\n' ' ')"
    name="npm makes a package"
    if needs npm "$name"; then
        (cd "$folder" && npm pack --offline --no-update-notifier) >"$temp/out" 2>"$temp/err" && tar tzf "$folder"/council-*.tgz | sort | tr '\n' ' ' >"$temp/out"
        if [ "$(cat "$temp/out")" = "package/council.d.ts package/council.mjs package/package.json " ]; then ok "$name"; else failed "$name" "$(tail -n 1 "$temp/err")"; fi
    fi
fi

name="the page"
if needs chromium "$name" && needs chromedriver "$name"; then
    if /usr/bin/python3 -c 'import selenium' 2>/dev/null; then
        timeout 600 /usr/bin/python3 "$here/page.py" "$page" "$program" 2>"$temp/err" || [ ! -s "$temp/err" ] || failed "$name" "$(tail -n 1 "$temp/err")"
    else
        skipped "$name" "python3-selenium is not installed"
    fi
fi
