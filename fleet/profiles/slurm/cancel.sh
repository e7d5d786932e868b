#!/bin/sh
# Cancels the tasks that an earlier run over this folder left, and waits for their end, for at most 30 seconds: one on a
# node that nobody reaches doesn't end, and does no harm.
scancel --name="$FLEET"
for _ in $(seq 30); do
    [ -n "$(squeue -h --name="$FLEET" -o %i)" ] || exit 0
    sleep 1
done
