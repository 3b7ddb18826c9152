# Completions of livukoe for bash: commands, of one word or two, then each command's options, their values, and files.

# The options of a command.
_livukoe_options()
{
    case $1 in
    clean) echo --side --limit --connectivity --force ;;
    maxima | record) echo --connectivity --force ;;
    nodes | sizelist) echo --connectivity ;;
    cut) echo --limit --force ;;
    convert) echo --to --force ;;
    "roll plate") echo --number --force ;;
    seed) echo --seed --size --force ;;
    plate) echo --force ;;
    esac
}

_livukoe()
{
    local word=${COMP_WORDS[COMP_CWORD]} before=${COMP_WORDS[COMP_CWORD - 1]} command=${COMP_WORDS[1]}
    # bash parts --connectivity=8 at the equals sign
    [[ $word == = ]] && word=
    [[ $before == = ]] && before=${COMP_WORDS[COMP_CWORD - 2]}
    [[ $command == roll ]] && command="roll ${COMP_WORDS[2]}"
    if ((COMP_CWORD == 1)); then
        COMPREPLY=($(compgen -W "clean maxima nodes record plate cut convert sizelist roll seed help version" -- "$word"))
    elif ((COMP_CWORD == 2)) && [[ $before == roll ]]; then
        COMPREPLY=($(compgen -W "count plate" -- "$word"))
    elif [[ $before == --side ]]; then
        COMPREPLY=($(compgen -W "light dark" -- "$word"))
    elif [[ $before == --to ]]; then
        COMPREPLY=($(compgen -W "old new" -- "$word"))
    elif [[ $before == --connectivity ]]; then
        COMPREPLY=($(compgen -W "4 6 8" -- "$word"))
    elif [[ $before == --@(limit|number|seed|size) ]]; then
        COMPREPLY=()
    elif [[ $word == -* ]]; then
        COMPREPLY=($(compgen -W "$(_livukoe_options "$command")" -- "$word"))
    else
        local IFS=$'\n'
        compopt -o filenames 2>/dev/null
        COMPREPLY=($(compgen -f -- "$word"))
    fi
}

complete -F _livukoe livukoe
