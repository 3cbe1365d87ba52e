#!/usr/bin/env bash
# Tests of viewer/trace.html in a headless Chromium (Debian's package `chromium`): viewer.sh [--fast] [--pictures] [TEST..].
# It installs nothing, and says so and passes where no browser is there. --fast leaves out the trace of 100,000 events, which
# takes a minute to make; --pictures writes docs/pictures/ anew; a TEST is
# shown_rows, refusals, other_traces, keys_and_finding, access or large.
here=$(cd "$(dirname "$0")/.." && pwd) || exit 1
"$here/viewer/build" --check || exit 1
command -v python3 >/dev/null || { echo "viewer: skipped: no python3 here"; exit 0; }
exec python3 "$here/bench/viewer.py" "$@"
