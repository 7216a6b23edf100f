#!/bin/sh
# Prints the figures of the front, the machine and compiled programs that `bench/README.md` keeps, by the scripts of
# this folder that measure them. What `rt ci` proved on this machine is taken as it is; `bin/pcc`
# builds the program where it isn't built yet.
top=$(cd "$(dirname "$(readlink -f "$0")")/.." && pwd) || exit 1
status=0
for script in front run compile; do
    [ -x "$top/bench/$script.sh" ] || continue
    echo "== bench/$script.sh"
    "$top/bench/$script.sh" || status=1
done
exit $status
