# Completion of sivorandra for bash: the options that can still be added, and file names.
_sivorandra() {
    local word=${COMP_WORDS[COMP_CWORD]} before=${COMP_WORDS[COMP_CWORD - 1]} given option other without=''
    local options='--verdict --json --jobs --why --longest --bounds --spare --clash --picture --report --from --to --replay --check --compare --words --sheet-of --help --version --strict --sheet --names'
    local alone='--verdict --json --why --longest --bounds --spare --check --words --sheet-of --help --version'
    local main=${options%% --strict*}
    COMPREPLY=()
    case $before in
    --from | --to | --jobs) return ;;
    --replay | --check | --compare) options='' ;;
    esac
    given=" ${COMP_WORDS[*]:1:COMP_CWORD-1} "
    [[ $given != *' --help '* && $given != *' --version '* ]] || return
    for option in $options; do # each option rules out itself and those that it cannot stand beside
        [[ $given == *" $option "* ]] || continue
        case $option in
        --strict | --sheet | --names) without+=" $option --help --version"; continue ;;
        --verdict | --json) without+=" ${main/--jobs /}"; continue ;;
        --jobs) without+=" ${main/--verdict --json /}"; continue ;;
        esac
        without+=" $alone $option --jobs"
        case $option in
        --why | --longest | --bounds | --spare | --check) without+=" $main" ;;
        --words | --sheet-of) without+=" ${options/ --strict/}" ;;
        --clash) without+=' --report --replay --compare' ;;
        --picture) without+=' --report --compare' ;;
        --report) without+=' --picture --clash' ;;
        --replay) without+=' --clash --compare' ;;
        --compare) without+=' --clash --picture --replay' ;;
        esac
    done
    for other in $options; do
        [[ $other != "$word"* || $word != -* || "$without " == *" $other "* ]] || COMPREPLY+=("$other")
    done
    if [[ $word != -* ]]; then
        mapfile -t COMPREPLY < <(compgen -f -- "$word")
        compopt -o filenames 2>/dev/null
    fi
}
complete -F _sivorandra sivorandra
