#!/usr/bin/env bash
# Runs the program where the gate's stored run can't look: an end with a status other than 0 and its line on standard error.
# It runs unproved here (rt try), since the gate has proved it in a place of its own.
set -u
cd "$(dirname "$0")/../crates/vk_main"
line='vfabi: call: A1 0 0'
log=$(mktemp)
rt try --data f.c=data/f.c -- lanes --isa b f.c _ZGVbN8vv_f 1 2 >/dev/null 2>"$log"
status=$?
if [ "$status" -ne 1 ] || ! grep -qxF -- "$line" "$log"; then
    echo "ends: a wrong NAME: status $status, and not 1 with the line $line" >&2
    cat "$log" >&2
    rm -f "$log"
    exit 1
fi
rm -f "$log"
echo "ends: a wrong NAME ends with status 1 and its line"
