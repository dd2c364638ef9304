# Completion of pprof's words in bash.
# Made by scripts/make_completions.py from the help and the tables of names in crates/pp_options.
_pprof() {
    local word=${COMP_WORDS[COMP_CWORD]} before=${COMP_WORDS[COMP_CWORD - 1]} dash=- values
    # bash takes = for a word of its own
    if [[ $word == = ]]; then
        word=
    elif [[ $before == = ]]; then
        before=${COMP_WORDS[COMP_CWORD - 2]}
    elif [[ $word == -* ]]; then
        before=
    fi
    COMPREPLY=()
    case $before in
        -sort | --sort) values="flat cum" ;;
        -granularity | --granularity) values="functions filefunctions files lines addresses" ;;
        -base | --base | -diff_base | --diff_base | -source_path | --source_path | -trim_path | --trim_path) return ;;
        -peek | --peek | -list | --list | -gen | --gen | -nodecount | --nodecount | -nodefraction | --nodefraction | -edgefraction | --edgefraction | -focus | --focus | -ignore | --ignore | -show | --show | -hide | --hide | -show_from | --show_from | -prune_from | --prune_from | -tagfocus | --tagfocus | -tagignore | --tagignore | -tagshow | --tagshow | -taghide | --taghide | -tagroot | --tagroot | -tagleaf | --tagleaf | -sample_index | --sample_index | -unit | --unit | -divide_by | --divide_by | -workers | --workers)
            compopt +o default
            return
            ;;
    esac
    if [[ $values ]]; then
        mapfile -t COMPREPLY < <(compgen -W "$values" -- "$word")
    elif [[ $word == -* ]]; then
        [[ $word == --* ]] && dash=--
        values="peek= list= gen= base= diff_base= sort= granularity= nodecount= nodefraction= edgefraction= focus= ignore= show= hide= show_from= prune_from= tagfocus= tagignore= tagshow= taghide= tagroot= tagleaf= sample_index= unit= divide_by= source_path= trim_path= workers= top text tree traces tags raw comments proto folded table compare changes account normalize noinlines showcolumns path_tree relative_percentages flat cum functions filefunctions files lines addresses inuse_space inuse_objects alloc_space alloc_objects contentions total_delay"
        [[ $COMP_CWORD == 1 ]] && values+=" help version"
        mapfile -t COMPREPLY < <(compgen -P "$dash" -W "$values" -- "${word#"$dash"}")
        [[ ${COMPREPLY[*]} == *= ]] && compopt -o nospace
    fi
}
complete -o default -F _pprof pprof
