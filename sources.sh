# SPDX-License-Identifier: MIT OR Apache-2.0
# Which files the program is built from, and which program is of these: for ./playcheck, ./release, ./test and ./prove, which stand
# in the folder $top.
built=crates/pb_cli/out/pb_cli
ready=dist/playcheck

# The named crates and those that they stand on: what crates.txt lists for each of them.
crates_below() {
    local -A needs=() seen=()
    local name rest
    while IFS=: read -r name rest; do
        name=${name%%#*}
        [ -z "${name// /}" ] || needs[$name]=${rest%%#*}
    done <"$top/crates.txt"
    local left=("$@")
    while [ ${#left[@]} -gt 0 ]; do
        name=${left[0]}
        left=("${left[@]:1}")
        if [ -n "$name" ] && [ -n "${needs[$name]+there}" ] && [ -z "${seen[$name]-}" ]; then
            seen[$name]=1
            # A list of words.
            # shellcheck disable=SC2206
            left+=(${needs[$name]})
        fi
    done
    printf '%s\n' "${!seen[@]}"
}

# The files that the program is built from, from the folder $top on, in the order of their names' bytes.
program_sources() {
    local name
    local LC_ALL=C
    shopt -s globstar nullglob
    local found=(crates.txt)
    for name in $(crates_below pb_cli); do
        found+=("$top/crates/$name/src/"**/*.rt)
    done
    printf '%s\n' "${found[@]#"$top/"}" | sort
}

# The SHA-256 of these files, each with its name.
sources_sum() {
    (cd -- "$top" && program_sources | tr '\n' '\0' | xargs -0 sha256sum -- | sha256sum | cut -d ' ' -f 1)
}

# The program that was built here is newer than each of its sources.
is_built() {
    [ -x "$top/$built" ] || return
    local source
    while IFS= read -r source; do
        [ ! "$top/$source" -nt "$top/$built" ] || return
    done < <(program_sources)
}

# The ready program is of these sources, and can be run here.
is_ready() {
    local sum magic
    [ -x "$top/$ready" ] && [ -r "$top/dist/sources" ] || return
    IFS= read -r sum <"$top/dist/sources"
    # What is no program would be run as a script.
    LC_ALL=C IFS= read -r -N 4 magic <"$top/$ready"
    [ "$magic" = $'\x7fELF' ] && [ "$sum" = "$(sources_sum)" ] && [[ $("$top/$ready" --version 2>/dev/null) == "playcheck "* ]]
}

say() {
    echo "playcheck: $1" >&2
}

# Builds the program, which proves it first; says why where it can't, with the status 64.
build() {
    if ! command -v rt >/dev/null; then
        say "the program has to be built, and rt isn't on PATH"
        return 64
    fi
    say "building the program, which takes over an hour the first time"
    local started log
    started=$(date +%s.%N)
    log=$(mktemp)
    if ! (cd "$top/crates/pb_cli" && rt run -- --help) >"$log" 2>&1 </dev/null || [ ! -x "$top/$built" ]; then
        cat "$log" >&2
        rm -f "$log"
        say "the program can't be built"
        return 64
    fi
    rm -f "$log"
    # A source that was edited during the build has to count as newer.
    touch -d "@$started" "$top/$built"
}
