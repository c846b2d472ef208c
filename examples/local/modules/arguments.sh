# SPDX-License-Identifier: MIT OR Apache-2.0
# For modules, which source it with their words HOST [ARGUMENTS]: behind it the arguments are on standard input, whether
# they came there or as the second word.
[ $# -lt 2 ] || exec <<END
$2
END
