# Completions of xvsh, made by dist/completions/make of what `xvsh --help` tells.
_xvsh() {
    local cur=${COMP_WORDS[COMP_CWORD]} prev=${COMP_WORDS[COMP_CWORD-1]} at=1 first='--color ' command flags=
    COMPREPLY=()
    # --color WHEN, of which bash makes two words, or three where a = stands between them
    if [ "$COMP_CWORD" -gt 1 ] && [ "${COMP_WORDS[1]}" = --color ]; then
        at=3 first=
        if [ "${COMP_WORDS[2]}" = = ]; then at=4; fi
        if [ "$COMP_CWORD" -lt "$at" ]; then
            mapfile -t COMPREPLY < <(compgen -W 'auto always never' -- "${cur#=}")
            return
        fi
    fi
    command=${COMP_WORDS[at]}
    if [ "$COMP_CWORD" -eq "$at" ]; then
        mapfile -t COMPREPLY < <(compgen -W "run replay plain check explain explore draw step grade -c $first--help --version" -- "$cur")
        return
    fi
    case $command in
        run) flags='--harts --turns --seed --order --schedule --schedule-to --files-to --trace --lines --strict --append --files --quiet --json --input -c -h --help' ;;
        replay) flags='--files-to --trace --lines --append --files --json --input -c -h --help' ;;
        plain) flags='--files-to --diagnostics --strict --append --files --json --input -c -h --help' ;;
        check) flags='--turns --room --strict --json --input -c -h --help' ;;
        explain) flags='--why --fix --append --json --input -c -h --help' ;;
        explore) flags='--states --memory --all --full --witness --draw --play --pair --json --append --input -c -h --help' ;;
        draw) flags='--from --to --svg -h --help' ;;
        step) flags='--schedule --append --json --input -c -h --help' ;;
        grade) flags='--json --tap --gradescope --jobs --states -h --help' ;;
    esac
    case $command:$prev in
        run:--order) mapfile -t COMPREPLY < <(compgen -W 'low high eager starve:' -- "$cur"); return ;;
        run:--files-to | replay:--files-to | plain:--files-to | explore:--witness) mapfile -t COMPREPLY < <(compgen -d -- "$cur"); compopt -o filenames; return ;;
        run:--harts | run:--turns | run:--seed | explore:--states | explore:--memory | draw:--from | draw:--to | grade:--jobs | grade:--states) compopt +o default; return ;;
        explore:--pair) compopt +o default; return ;;
        run:--schedule-to | run:--trace | replay:--trace | explore:--draw | explore:--play | step:--schedule) return ;;
        *:--input) mapfile -t COMPREPLY < <(compgen -W none -- "$cur"; compgen -f -- "$cur"); compopt -o filenames; return ;;
    esac
    case $cur in
        -*) mapfile -t COMPREPLY < <(compgen -W "$flags" -- "$cur") ;;
    esac
}
complete -o default -F _xvsh xvsh
