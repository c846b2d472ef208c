# SPDX-License-Identifier: MIT OR Apache-2.0
# Completion of bash for playcheck and playcheck-ansible. Made by packaging/make_pages.py: change that.

_playcheck_words() {
    mapfile -t COMPREPLY < <(compgen -W "$1" -- "$2")
}

_playcheck_files() {
    mapfile -t COMPREPLY < <(compgen -f -- "$1")
    compopt -o filenames 2>/dev/null
}

_playcheck_folders() {
    mapfile -t COMPREPLY < <(compgen -d -- "$1")
    compopt -o filenames 2>/dev/null
}

# Sets the word that is completed, the one before it, and the command; bash makes a word of `=` in `--format=json`.
_playcheck_place() {
    word=${COMP_WORDS[COMP_CWORD]}
    before=${COMP_WORDS[COMP_CWORD - 1]}
    command=${COMP_WORDS[1]}
    if [ "$word" = = ]; then
        word=
    elif [ "$before" = = ]; then
        before=${COMP_WORDS[COMP_CWORD - 2]}
    fi
}

_playcheck() {
    local word before command
    _playcheck_place
    if [ "$COMP_CWORD" = 1 ]; then
        _playcheck_words "check run help -h --help -V --version" "$word"
        return
    fi
    case $before in
    -f | --forks)
        COMPREPLY=()
        return
        ;;
    --modules)
        _playcheck_folders "$word"
        return
        ;;
    --arguments)
        COMPREPLY=()
        return
        ;;
    --timeout)
        COMPREPLY=()
        return
        ;;
    esac
    case $command:$word in
    check:-*) _playcheck_words "-i --inventory -s --signatures -h --help" "$word" ;;
    run:-*) _playcheck_words "-i --inventory -s --signatures -f --forks --answers --modules --arguments --timeout -h --help" "$word" ;;
    help:*) _playcheck_words "check run help" "$word" ;;
    *) _playcheck_files "$word" ;;
    esac
}

_playcheck_ansible() {
    local word before command
    _playcheck_place
    if [ "$COMP_CWORD" = 1 ]; then
        _playcheck_words "check convert signatures explain -h --help -V --version" "$word"
        return
    fi
    case $before in
    -t | --tags)
        COMPREPLY=()
        return
        ;;
    --skip-tags)
        COMPREPLY=()
        return
        ;;
    --format)
        _playcheck_words "github gitlab json junit sarif text" "$word"
        return
        ;;
    --color)
        _playcheck_words "auto always never" "$word"
        return
        ;;
    --min-judged)
        COMPREPLY=()
        return
        ;;
    -o | --output)
        _playcheck_folders "$word"
        return
        ;;
    esac
    case $command:$word in
    check:-*) _playcheck_words "-h --help -i --inventory -s --signatures -e --extra-vars -t --tags --skip-tags --trust-facts --trust-returns --no-lookup --run-inventory --trust-repository --vars --format --color --strict --min-judged --all --baseline --write-baseline" "$word" ;;
    convert:-*) _playcheck_words "-h --help -o --output -i --inventory -s --signatures -e --extra-vars -t --tags --skip-tags --trust-facts --trust-returns --no-lookup --run-inventory --trust-repository --vars" "$word" ;;
    signatures:-*) _playcheck_words "-h --help --trust-repository" "$word" ;;
    explain:-*) _playcheck_words "-h --help" "$word" ;;
    explain:*) _playcheck_words "S01 S02 S03 S04 S05 I01 I02 I03 I04 I05 P01 P02 P03 P04 P05 P06 P07 P08 P09 V01 V02 V03 V04 V05 V06 V07 V08 V09 V10 V11 V12 V13 A01 A02 A03 A-alias A-choice A-name A-required" "$word" ;;
    *) _playcheck_files "$word" ;;
    esac
}

complete -F _playcheck playcheck
complete -F _playcheck_ansible playcheck-ansible
