#!/usr/bin/env bash
# How many calls a second the packages for Python and R make on [51; 50, 49, 1], by the library that
# tools/build.py --library has made; the best of five times half a second. Stop other work first.
set -eu
cd "$(dirname "$0")/.."
temp=$(mktemp -d)
trap 'rm -rf "$temp"' EXIT
tools/shared.sh crates/council_c/out/libcouncil.a "$temp/libcouncil.so"
export COUNCIL_LIBRARY=$temp/libcouncil.so PYTHONPATH=python/src PYTHONDONTWRITEBYTECODE=1
python3 - <<'END'
import time
import council

for more in {}, {"swings": True}, {"coalitions": True}:
    best = 0.0
    for _ in range(5):
        number, begun = 0, time.perf_counter()
        while time.perf_counter() - begun < 0.5:
            council.report(51, [50, 49, 1], **more)
            number += 1
        best = max(best, number / (time.perf_counter() - begun))
    print(f"Python {more}: {best:,.0f} calls a second")
END
command -v Rscript >/dev/null || exit 0
mkdir "$temp/sources"
cp -rL r/council "$temp/sources/"
R CMD INSTALL --library="$temp" "$temp/sources/council" >/dev/null 2>&1
Rscript --vanilla - "$temp" <<'END'
library(council, lib.loc = commandArgs(TRUE))
for (swings in c(FALSE, TRUE)) {
  best <- max(replicate(5, 500 / system.time(for (at in 1:500) council(51, c(50, 49, 1), swings = swings))[["elapsed"]]))
  cat("R swings = ", swings, ": ", round(best), " calls a second\n", sep = "")
}
END
