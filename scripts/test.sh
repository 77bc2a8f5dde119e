#!/usr/bin/env bash
# The gate, or a part of it:
#
#     bash scripts/test.sh            all that a change has to pass
#     bash scripts/test.sh --quick    over a program that is built: what most often finds a fault, in at most five minutes
#
# The kit's `rt ci` proves every crate, tries the must-fail edits and runs the tests and the programs. The documents are
# compared with what they name, and the lists of docs/MODEL.md with the specs. Then the programs that it built hold the
# conversations, answer pseudo-random lines beside the slow machine, are run on files, words and streams of all sorts and for
# peers over TCP, make CSV into lines and answers into CSV, and are used by the client in Python: so far --quick. The others
# give long reports in turn, say what they hold in memory, dump files, open files beside the slow reader of files, and have
# their growths and the calls of their file refused in turn. Last they meet damaged files, disks that lie, lines of all forms,
# many peers, little room and crashes: power cuts at each moment of a log, stops, faults and kills.
set -eu
cd "$(dirname "$0")/.."

QUICK="documents conversations compare compare_cursors files_in_use words_and_streams peers csv_lines csv_encodings csv_answers csv_days clients"
OTHERS="cursors_in_turn room dumps open_files refusals refused_fetches open_damaged lying_disks last_change line_forms many_peers little_room crashes"

# Runs each of them, two at a time, and shows what each wrote as it ends; the first that fails ends all.
run_each() {
    shown=$(mktemp -d)
    trap 'rm -rf "$shown"' EXIT
    printf '%s\n' "$@" | shown="$shown" xargs -P 2 -I NAME bash -c '
        { echo "tests/gate/NAME.py"; python3 tests/gate/NAME.py; } > "$shown/NAME" 2>&1
        status=$?
        cat "$shown/NAME"
        [ "$status" = 0 ] || exit 255'
}

case "${1:-}" in
--quick)
    if [ ! -x crates/roadseg/out/roadseg ]; then
        echo 'There is no built program: (cd crates/roadseg && rt run -- --version) proves and builds it.' >&2
        exit 2
    fi
    python3 scripts/model_lists.py
    run_each $QUICK
    ;;
"")
    # each check by one process: several for one check take a fifth more of the processors (decision: unpatched-kit)
    RT_JOBS="${RT_JOBS:-$(nproc)}" rt ci
    if [ ! -x crates/roadseg/out/roadseg ]; then
        (cd crates/roadseg && rt run -- --help > /dev/null)
    fi
    if [ ! -x crates/rs_room/out/rs_room ]; then
        (cd crates/rs_room && rt run < /dev/null > /dev/null)
    fi
    python3 scripts/model_lists.py
    run_each $QUICK $OTHERS
    ;;
*)
    echo 'usage: bash scripts/test.sh [--quick]' >&2
    exit 2
    ;;
esac
