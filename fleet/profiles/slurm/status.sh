#!/bin/sh
# Prints running, success or failed of a job: by the controller, which knows it for MinJobAge, then by its file of
# completed jobs (jobcomp/filetxt). A question that can't be answered now, as while the controller is away, is `running`.
id=${1%%;*}
for _ in 1 2 3; do
    out=$(scontrol -o show job "$id" 2>&1) && break
    case $out in *"Invalid job id"*) break ;; esac
    sleep 1
done
state=$(printf '%s\n' "$out" | sed -n 's/.* JobState=\([A-Z_]*\).*/\1/p' | head -n 1)
if [ -z "$state" ]; then
    case $out in *"Invalid job id"*)
        file=$(scontrol show config 2>/dev/null | sed -n 's/^JobCompLoc *= *//p')
        state=$(sed -n "s/^JobId=$id .* JobState=\([A-Z_]*\).*/\1/p" "$file" 2>/dev/null | tail -n 1)
        [ -n "$state" ] || state=FAILED
        ;;
    esac
fi
case $state in
COMPLETED) echo success ;;
BOOT_FAIL | CANCELLED | DEADLINE | FAILED | NODE_FAIL | OUT_OF_MEMORY | PREEMPTED | REVOKED | TIMEOUT) echo failed ;;
*) echo running ;;
esac
