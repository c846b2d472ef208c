# SPDX-License-Identifier: MIT OR Apache-2.0
# For `command` and `shell`, which source it: runs the program that the module $module is told to run, in `chdir` or the
# folder, but not where `creates` is there or `removes` isn't. What `read` prints sets the arguments.
# shellcheck disable=SC2154
. "$(dirname -- "$0")/arguments.sh"
lib=$(dirname -- "$0")/lib.py
code=$(python3 -IS "$lib" read "$module") || exit 1
# The program's words are $@ from here on.
eval "$code"
if [ -n "${creates-}" ] && [ -e "$creates_at" ]; then
    printf %s "skipped, since $creates exists" | python3 -IS "$lib" say
elif [ -n "${removes-}" ] && [ ! -e "$removes_at" ]; then
    printf %s "skipped, since $removes does not exist" | python3 -IS "$lib" say
else
    printf '%s\0' "$@" | python3 -IS "$lib" run "${chdir_at-$root}"
fi
