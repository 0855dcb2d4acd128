# Completion of the command fabric in bash: subcommands and options, then files. Source it, or install it as
# share/bash-completion/completions/fabric.

# Puts into COMPREPLY what the word at the cursor can become. Where that is a file, COMPREPLY stays empty, and bash completes it.
_fabric() {
    local current=${COMP_WORDS[COMP_CWORD]} word words=0 can_become=
    for word in "${COMP_WORDS[@]:1:COMP_CWORD-1}"; do
        [[ $word == -?* ]] || ((words++))
    done
    if [[ $current == -* ]]; then
        can_become='-h --help -V --version'
    elif ((words == 0)); then
        can_become='list tally to1 to2 check'
    fi
    COMPREPLY=()
    [[ -z $can_become ]] || mapfile -t COMPREPLY < <(compgen -W "$can_become" -- "$current")
    # A file is the second word, and no other.
    if [[ -n $can_become ]] || ((words != 1)); then
        compopt +o default 2>/dev/null
    fi
}

complete -o default -F _fabric fabric
