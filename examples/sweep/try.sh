#!/usr/bin/env bash
# Tries the sweep of this folder with the periods of 1 and 2 nanoseconds: by GNU parallel, where a job fails at first, and as the
# tasks of an array, one after the other. Both are to give the same table, with the rows of expected.tsv. FLEXPRET names the
# program, if it isn't the built one. The gate does so too.
# shellcheck disable=SC2317
set -u
here=$(dirname "$(readlink -f "$0")")
work=$(mktemp -d)
trap 'rm -rf "$work"' EXIT
cd "$work" || exit 1
if ! command -v parallel >/dev/null; then
    echo "try.sh: nothing was tried, since parallel isn't installed"
    exit 0
fi

failed=0
# Says what is to hold, and whether it does.
holds() {
    local what=$1
    shift
    if "$@"; then
        echo "holds: $what"
    else
        echo "FAILS: $what"
        failed=1
    fi
}
says() { [ "$("$here/table.py")" = "$1" ]; }
not() { ! "$@" 2>errors; }

"$here/make.py" all 2
cd all || exit 1
mv setups/01-SSSTSSST.toml aside
holds 'a sweep with a job that fails says so' not ./sweep.sh
holds 'that job alone is missing' says '1 of 510 jobs have no result'
mv aside setups/01-SSSTSSST.toml
begun=$(wc -l <jobs.log)
holds 'the sweep goes on' ./sweep.sh
holds 'with the job that failed alone' test "$(wc -l <jobs.log)" -eq $((begun + 1))
holds 'nothing is missing' says '0 of 510 jobs have no result'
holds 'the table has the expected rows' test "$(grep -cFxf "$here/expected.tsv" table.tsv)" -eq "$(wc -l <"$here/expected.tsv")"
if command -v gnuplot >/dev/null; then
    holds 'the plot is drawn' gnuplot slack.gp
    holds 'as an SVG' grep -q '</svg>' slack.svg
fi

cd "$work" || exit 1
"$here/make.py" array 2
cd array || exit 1
tasks() {
    local task
    for task in 1 2 3 4; do
        SLURM_ARRAY_TASK_ID=$task SLURM_ARRAY_TASK_COUNT=4 SLURM_ARRAY_TASK_MIN=1 SLURM_ARRAY_TASK_MAX=4 ./array.sh || return 1
    done
}
holds 'the tasks of an array do all jobs' tasks
holds 'nothing is missing' says '0 of 510 jobs have no result'
holds 'both tables are the same' cmp table.tsv ../all/table.tsv
exit $failed
