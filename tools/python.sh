#!/bin/sh
# Prints the path of a Python 3.11 or later that has these modules: the first of $CLUBCARD_PYTHON, /usr/bin/python3, to
# which Debian's packages belong (python/debian-packages.txt), and python3 on the path.
#
#     tools/python.sh [MODULE ..]
#
# The status is 0, or 1 where there is none; a line on standard error then says so.
modules=$(echo "$*" | tr ' ' ',')
for each in "${CLUBCARD_PYTHON-}" /usr/bin/python3 python3; do
    [ -n "$each" ] && "$each" -c "import sys${modules:+, $modules}
sys.version_info >= (3, 11) or sys.exit(1)
print(sys.executable)" 2>/dev/null && exit 0
done
echo "there is no Python 3.11 with the modules ${modules:-of its own}: install the packages of" \
    "python/debian-packages.txt" >&2
exit 1
