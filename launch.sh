# SPDX-License-Identifier: MIT OR Apache-2.0
# Picks the program for ./playcheck, writes it into dist/stamp, and runs it: bash launch.sh TOP WORD..
set -u
top=$1
shift
. "$top/sources.sh"
stamp=$top/dist/stamp

# Writes the stamp. What was changed in the second before the program was picked, or later, counts as changed since.
write_stamp() {
    local written=$stamp.$$
    local folders=("$top"/crates/*/src)
    { printf '%s\n' "$program" "${#folders[@]}" >"$written" && touch -d "@$((started - 1))" -- "$written" &&
        mv -fT -- "$written" "$stamp"; } 2>/dev/null || rm -f -- "$written"
}

printf -v started '%(%s)T' -1
program=$built
if ! is_built; then
    if is_ready; then
        program=$ready
    else
        build || exit
    fi
fi
write_stamp
exec "$top/$program" "$@"
