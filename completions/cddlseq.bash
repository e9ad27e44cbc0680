# Completion of cddlseq for bash: its commands, the options of each, and names of files.

_cddlseq() {
    local current=${COMP_WORDS[COMP_CWORD]} command=${COMP_WORDS[1]} options files=0
    local -a commands=(check validate rewrite show explain help)
    COMPREPLY=()
    if ((COMP_CWORD == 1)); then
        mapfile -t COMPREPLY < <(compgen -W "${commands[*]} -h --help -V --version" -- "$current")
        return
    fi
    case $command in
        check) options='--root --explain' files=1 ;;
        validate) options='--root --explain --depth --item-bytes --steps --no-progress --quiet' files=2 ;;
        rewrite) options='--root --explain --depth --item-bytes --steps --no-progress --deterministic' files=2 ;;
        show) options='--depth --item-bytes' files=1 ;;
        explain) options='' files=0 ;;
        help)
            ((COMP_CWORD == 2)) && mapfile -t COMPREPLY < <(compgen -W "${commands[*]}" -- "$current")
            return
            ;;
        *) return ;;
    esac

    # What stands before the word: values of options, names of files, and '--', behind which there are only names.
    local at word named=0 only_names=0 awaits_value=0
    for ((at = 2; at < COMP_CWORD; at++)); do
        word=${COMP_WORDS[at]}
        if ((awaits_value)); then
            # bash cuts '--root=a' into three words
            [[ $word == '=' ]] || awaits_value=0
        elif ((!only_names)) && [[ $word == -- ]]; then
            only_names=1
        elif ((!only_names)) && [[ $word == -?* ]]; then
            [[ $word == --@(root|depth|item-bytes|steps) ]] && awaits_value=1
        else
            ((named += 1))
        fi
    done

    if ((awaits_value)); then
        return
    elif ((!only_names)) && [[ $current == -?* ]] || ((named >= files)); then
        mapfile -t COMPREPLY < <(compgen -W "$options -h --help" -- "$current")
    else
        compopt -o filenames 2> /dev/null
        mapfile -t COMPREPLY < <(compgen -f -- "$current")
    fi
}

complete -F _cddlseq cddlseq
