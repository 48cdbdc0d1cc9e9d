#!/usr/bin/env bash
# Heads a second and body megabytes a second of http_in on one core, beside httparse alone and a plain copy of the same
# bytes. Run it once `rt ci` has built crates/http_in_bench/out/http_in_bench, the proved program. Wanted: both ratios at
# 50 in 100 or more.
set -eu
top=$(cd "$(dirname "$0")/.." && pwd)
exec taskset -c 0 "$top/crates/http_in_bench/out/http_in_bench" measure
