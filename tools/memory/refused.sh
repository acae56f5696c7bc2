#!/usr/bin/env bash
# Runs the tests of the crate `perf_out_of_memory` with allocations refused, as refused.py tells.
exec python3 "$(dirname "$0")/refused.py"
