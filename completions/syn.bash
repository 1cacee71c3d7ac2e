# Completion of syn for bash. Made by ./pages from the program's help.
_syn() {
    local word=${COMP_WORDS[COMP_CWORD]} last=${COMP_WORDS[COMP_CWORD - 1]}
    local command='' place=0 served='' options='' option='' wanted=0 i
    for ((i = 1; i < COMP_CWORD; i++)); do
        case ${COMP_WORDS[i]} in
            --served) served=-served ;;
            --archive | --connections | --every | --folder | --prefer | --user)
                option=${COMP_WORDS[i]} wanted=1
                ;;
            --after)
                option=${COMP_WORDS[i]} wanted=2
                ;;
            # An address is three words: HOST, a colon and PORT.
            :) i=$((i + 1)) ;;
            -* | =) ;;
            *)
                if [ $wanted -gt 0 ]; then
                    wanted=$((wanted - 1))
                elif [ -n "$command" ]; then
                    place=$((place + 1))
                else
                    command=${COMP_WORDS[i]}
                fi
                ;;
        esac
    done
    [ "$word" != = ] || word=''
    COMPREPLY=()
    case $word/$last in
        :/* | */:) return ;;
    esac
    [ $wanted -gt 0 ] || option=''
    local action=()
    case $command$option$served in
        format--after-served)
            action=(-A hostname)
            ;;
        format--after* | reconcile--archive*)
            action=(-f)
            ;;
        reconcile--prefer*)
            action=(-W 'folder replica')
            ;;
        serve--connections* | serve--user* | serve--every* | sync--every*)
            action=(none)
            ;;
        serve--folder*)
            action=(-d)
            ;;
        sync--prefer* | run--prefer* | plan--prefer*)
            action=(-W 'left right')
            ;;
    esac
    if [ ${#action[@]} -gt 0 ]; then
        [ "${action[0]}" != none ] || return 0
        mapfile -t COMPREPLY < <(compgen "${action[@]}" -- "$word")
        return 0
    fi
    case $command in
        '')
            options='-v --verbose -h --help -V --version'
            ;;
        format)
            options='--after --served --force -v --verbose -h --help'
            ;;
        put | mkdir | rm | chmod | show)
            options='--served -v --verbose -h --help'
            ;;
        check | migrate | log)
            options='-v --verbose -h --help'
            ;;
        export)
            options='--update --delete --served -v --verbose -h --help'
            ;;
        import)
            options='--skip --served -v --verbose -h --help'
            ;;
        reconcile)
            options='--prefer --archive --dry-run --emptied --anew -v --verbose -h --help'
            ;;
        serve)
            options='--connections --folder --user --every -v --verbose -h --help'
            ;;
        sync)
            options='--prefer --every -v --verbose -h --help'
            ;;
        run)
            options='--prefer -v --verbose -h --help'
            ;;
        plan)
            options='--prefer --served -v --verbose -h --help'
            ;;
        simulate)
            options='--trace -v --verbose -h --help'
            ;;
    esac
    case $word/$last in
        -*/*) mapfile -t COMPREPLY < <(compgen -W "$options" -- "$word"); return ;;
    esac
    case $command/$place$served in
        /0* | help/0*)
            action=(-W 'format put mkdir rm chmod show check migrate log export import reconcile serve sync run plan simulate help')
            ;;
        put/0-served | mkdir/0-served | rm/0-served | chmod/0-served | show/0-served | \
            export/0-served | import/0-served | plan/0-served | plan/1-served)
            action=(-A hostname)
            ;;
        format/0*)
            action=(-W 'replica archive')
            ;;
        format/2* | put/0* | mkdir/0* | rm/0* | chmod/0* | show/0* | check/0* | migrate/0* | \
            log/0* | export/0* | import/0* | reconcile/1* | serve/0* | sync/0* | run/0* | \
            run/1* | run/2* | plan/0* | plan/1* | plan/2* | simulate/0*)
            action=(-f)
            ;;
        export/1* | import/2* | reconcile/0*)
            action=(-d)
            ;;
        serve/1* | sync/1* | sync/2*)
            action=(-A hostname)
            ;;
        *) return ;;
    esac
    mapfile -t COMPREPLY < <(compgen "${action[@]}" -- "$word")
}
complete -F _syn syn
