# Completions of vtree for bash. This file is written by `checks/completions --write`.
_vtree() {
    local word=${COMP_WORDS[COMP_CWORD]} before=${COMP_WORDS[COMP_CWORD - 1]} words=
    case ${COMP_WORDS[1]}:$before in
        run:--script) COMPREPLY=($(compgen -W '1 2' -- "$word")); return ;;
        run:--format) COMPREPLY=($(compgen -W 'text jsonl' -- "$word")); return ;;
        check:--most) COMPREPLY=($(compgen -W '' -- "$word")); return ;;
        check:--script) COMPREPLY=($(compgen -W '1 2' -- "$word")); return ;;
        check:--format) COMPREPLY=($(compgen -W 'text json' -- "$word")); return ;;
        test:--script) COMPREPLY=($(compgen -W '1 2' -- "$word")); return ;;
        test:--format) COMPREPLY=($(compgen -W 'text json junit' -- "$word")); return ;;
        show:--at) COMPREPLY=($(compgen -W '' -- "$word")); return ;;
        show:--task) COMPREPLY=($(compgen -W '' -- "$word")); return ;;
        show:--script) COMPREPLY=($(compgen -W '1 2' -- "$word")); return ;;
        show:--format) COMPREPLY=($(compgen -W 'text json dot mermaid' -- "$word")); return ;;
        explain:--script) COMPREPLY=($(compgen -W '1 2' -- "$word")); return ;;
        explain:--format) COMPREPLY=($(compgen -W 'text json' -- "$word")); return ;;
        turns:--most) COMPREPLY=($(compgen -W '' -- "$word")); return ;;
        turns:--script) COMPREPLY=($(compgen -W '1 2' -- "$word")); return ;;
        turns:--format) COMPREPLY=($(compgen -W 'text json' -- "$word")); return ;;
        from:--task) COMPREPLY=($(compgen -W '' -- "$word")); return ;;
        from:-o) COMPREPLY=($(compgen -W '' -- "$word")); return ;;
    esac
    if [ "$COMP_CWORD" -eq 1 ]; then
        COMPREPLY=($(compgen -W 'run check test show explain turns from rules new --help --version' -- "$word"))
        return
    fi
    case ${COMP_WORDS[1]}:$word in
        run:-*) words='--script --format --help' ;;
        check:-*) words='-W --most --script --format --help' ;;
        test:-*) words='--write -v --script --format --help' ;;
        show:-*) words='--at --task --files --script --format --help' ;;
        explain:-*) words='--script --format --help' ;;
        turns:-*) words='--all --unborn --most --script --format --help' ;;
        from:-*) words='--task -o --check --files --help' ;;
        rules:-*) words='--markdown --help' ;;
        new:-*) words='--help' ;;
        rules:*) words=$(vtree rules 2>/dev/null | cut -d' ' -f1) ;;
        new:*) words=$(vtree new 2>/dev/null | cut -d' ' -f1) ;;
        *) COMPREPLY=($(compgen -f -- "$word")); return ;;
    esac
    COMPREPLY=($(compgen -W "$words" -- "$word"))
}
complete -o filenames -F _vtree vtree
