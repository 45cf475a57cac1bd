# Completion of the commands `bufr`, `bufr-ls`, `bufr-select` and those of the Python package in bash.
_bufr() {
    local word=${COMP_WORDS[COMP_CWORD]} before=${COMP_WORDS[COMP_CWORD-1]} choices=
    COMPREPLY=()
    if [ "$COMP_CWORD" -eq 1 ]; then
        choices="show check encode add merge help --help --version"
    else
        case "$before" in
            -b | -d | -o) ;;
            *)
                case "$word,${COMP_WORDS[1]}" in
                    *,help) choices="show check encode add merge" ;;
                    -*,show | -*,check) choices="-b -d --help" ;;
                    -*,encode) choices="-b -d --compressed --help" ;;
                    -*,add | -*,merge) choices="-b -d -o --help" ;;
                esac
                ;;
        esac
    fi
    if [ -n "$choices" ]; then
        mapfile -t COMPREPLY < <(compgen -W "$choices" -- "$word")
    else
        mapfile -t COMPREPLY < <(compgen -f -- "$word")
    fi
}
# Completes the last of the columns after -c that were typed, or a file.
_bufr_ls() {
    local word=${COMP_WORDS[COMP_CWORD]} before=${COMP_WORDS[COMP_CWORD-1]} typed=
    COMPREPLY=()
    if [ "$before" = -c ]; then
        case "$word" in *,*) typed=${word%,*}, ;; esac
        mapfile -t COMPREPLY < <(compgen -P "$typed" -W "input message place length edition centre sub_centre update category \
            international local_category master_table master_version local_version year month day hour minute second subsets \
            observed compressed descriptors reason" -- "${word##*,}")
        compopt -o nospace 2>/dev/null
    elif [ "${word#-}" != "$word" ]; then
        mapfile -t COMPREPLY < <(compgen -W "-c --help --version" -- "$word")
    else
        mapfile -t COMPREPLY < <(compgen -f -- "$word")
    fi
}
# Completes the last of the columns after -c that were typed, but descriptors; or an option or a file.
_bufr_select() {
    local word=${COMP_WORDS[COMP_CWORD]} before=${COMP_WORDS[COMP_CWORD-1]} typed=
    COMPREPLY=()
    if [ "$before" = -c ]; then
        case "$word" in *,*) typed=${word%,*}, ;; esac
        mapfile -t COMPREPLY < <(compgen -P "$typed" -W "input message place subset centre sub_centre update category \
            international local_category master_version local_version year month day hour minute second observed \
            compressed" -- "${word##*,}")
        compopt -o nospace 2>/dev/null
    elif [ "$before" = -e ] || [ "$before" = -v ]; then
        :
    elif [ "${word#-}" != "$word" ]; then
        mapfile -t COMPREPLY < <(compgen -W "-c -e -v -b -d --help --version" -- "$word")
    else
        mapfile -t COMPREPLY < <(compgen -f -- "$word")
    fi
}
# Completes an option of a command of the Python package, or a file. COMP_WORDS begins with its name.
_bufr_commands() {
    local word=${COMP_WORDS[COMP_CWORD]} choices="--help --version"
    COMPREPLY=()
    case "${COMP_WORDS[0]##*/}" in
        bufr-annotate) choices="-b -d --tables --quiet $choices" ;;
        bufr-by-version) choices="--into --run --quiet $choices" ;;
        bufr-collect-slurm) choices="-b -d --tables -o --folder --fan --steps --tries --wait --quiet --sbatch $choices" ;;
        bufr-from-csv) choices="-b -d --tables -o --round --subsets --new --template --centre --counts --quiet $choices" ;;
        bufr-from-json) choices="--quiet $choices" ;;
        bufr-geojson) choices="-b -d --tables --lines --values --each --missing --quiet $choices" ;;
        bufr-lint) choices="-b -d --tables --set-time --quiet $choices" ;;
        bufr-map) choices="-b -d --tables -o --element --quiet $choices" ;;
        bufr-report) choices="-b -d --tables -o --expect --no-map --quiet $choices" ;;
        bufr-skeleton) choices="-b -d --tables --counts --subsets --compressed --centre --category --time --notes $choices" ;;
        bufr-summary) choices="-b -d --tables --data --headings --json --quiet $choices" ;;
        bufr-to-json) choices="-b -d --tables --lines --nested --compact --quiet $choices" ;;
    esac
    if [ "${word#-}" != "$word" ]; then
        mapfile -t COMPREPLY < <(compgen -W "$choices" -- "$word")
    else
        mapfile -t COMPREPLY < <(compgen -f -- "$word")
    fi
}
complete -o filenames -F _bufr bufr
complete -o filenames -F _bufr_ls bufr-ls
complete -o filenames -F _bufr_select bufr-select
complete -o filenames -F _bufr_commands bufr-annotate bufr-by-version bufr-collect-slurm bufr-from-csv bufr-from-json bufr-geojson \
    bufr-lint bufr-map bufr-report bufr-skeleton bufr-summary bufr-to-json
