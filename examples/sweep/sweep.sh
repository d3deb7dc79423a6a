#!/usr/bin/env bash
# sweep.sh [HOSTS]: does all jobs of this folder by GNU parallel, over the hosts of a file, one a line as `8/user@host`, with `:`
# for this machine; without a file, here. The hosts need nothing but rsync and a login by ssh.
#
# jobs.log has a line for each job that ended. Called again, it goes on: with those that failed, and those that weren't begun.
set -eu
hosts=${1:+$(readlink -f "$1")}
cd "$(dirname "$(readlink -f "$0")")"
far=()
if [ -n "$hosts" ]; then
    far=(--sshloginfile "$hosts" --workdir . --basefile flexpret --basefile job.sh --basefile sum.fpx
        --transferfile 'setups/{1}.toml' --return 'results/{1}.txt' --cleanup)
fi
parallel "${far[@]}" --joblog jobs.log --resume-failed --retries 3 --colsep '\t' ./job.sh '{1}' :::: jobs.tsv
