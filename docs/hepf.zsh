#compdef hepf hepf-unproved
# Completion of hepf's words for zsh: `source docs/hepf.zsh` after `compinit`, or this file as `_hepf` in a folder of `fpath`.

_hepf() {
    local -a commands
    local state
    commands=(
        'check:say why a source is refused'
        'run:run a source'
        'sample:run a source by lots many times and count what comes'
        'explore:find every outcome over all choices'
        'replay:make the steps of a history again'
        'state:show what everything holds'
        'trace:say what each step did'
        'page:write a page that shows a run step by step'
        'picture:draw a run as lanes of processes'
        'why:say why processes wait'
        'races:say which accesses race'
        'cover:say how often the statement of each line began'
        'diff:say what differs between the runs of two histories'
        'list:show the units and common blocks of a source'
        'explain:say what a line or a status means'
        'from:show what a listing needs to be a source'
        'help:show help'
    )
    _arguments -C '--long[say more of what went wrong]' '--help[show help]' '--version[show the version]' '1: :->command' '*:: :->words'
    if [[ $state == command ]]; then
        _describe command commands
    elif [[ $state == words ]]; then
        _hepf_words
    fi
}

# The words behind the command.
_hepf_words() {
    case $words[1] in
        check)
            _arguments '--warn[say what may well be a mistake]' '--format=[how to write it]:format:((gnu\:lines json\:objects))' '--color=[when lines have colors]:when:((auto\:terminals always\:always never\:never))' '--long[say more of what went wrong]' '--help[show help]' \
                '1:source:_files -g "*.(f|for|hep)"'
            ;;
        list)
            _arguments '--color=[when lines have colors]:when:((auto\:terminals always\:always never\:never))' '--long[say more of what went wrong]' '--help[show help]' '1:source:_files -g "*.(f|for|hep)"'
            ;;
        run)
            _arguments '--arena=[cells of storage]:cells:' '--steps=[entries of the history]:entries:' \
                '--workers=[threads, 1 to 16]:threads:' '--seed=[what lots are drawn by]:seed:' '--choices=[processes that are chosen first]:choices:_files' \
                '--follow=[history whose steps are made first]:history:_files' '--history=[file that gets the history]:history:_files' \
                '--color=[when lines have colors]:when:((auto\:terminals always\:always never\:never))' '--long[say more of what went wrong]' '--help[show help]' '1:source:_files -g "*.(f|for|hep)"'
            ;;
        sample)
            _arguments '--runs=[runs, 1 to 1000000]:runs:' '--seed=[seed of the first run]:seed:' '--arena=[cells of storage]:cells:' \
                '--steps=[entries of the history]:entries:' '--keep=[how the files of histories begin]:prefix:_files' '--format=[how to write it]:format:(json)' \
                '--progress[say how many runs were made]' '--color=[when lines have colors]:when:((auto\:terminals always\:always never\:never))' '--long[say more of what went wrong]' '--help[show help]' '1:source:_files -g "*.(f|for|hep)"'
            ;;
        explore)
            _arguments '--states=[states at most]:states:' '--arena=[cells of storage]:cells:' '--expect-one[status 10 where there are several outcomes, or none]' \
                '--expect-status=[status 10 where an outcome has another one]:status:' '--keep=[how the files of histories begin]:prefix:_files' \
                '--progress[say how many states were found]' '--color=[when lines have colors]:when:((auto\:terminals always\:always never\:never))' '--long[say more of what went wrong]' '--help[show help]' '1:source:_files -g "*.(f|for|hep)"'
            ;;
        replay)
            _arguments '--arena=[cells of storage]:cells:' '--color=[when lines have colors]:when:((auto\:terminals always\:always never\:never))' '--long[say more of what went wrong]' '--help[show help]' '1:source:_files -g "*.(f|for|hep)"' \
                '2:history:_files'
            ;;
        page)
            _arguments '--from=[first entry]:entry:' '--to=[last entry]:entry:' '--choices=[choices of a run that is looked at]:choices:_files' '--seed=[lots of a run that is looked at]:seed:' '--arena=[cells of storage]:cells:' \
                '--steps=[entries of the history]:entries:' '--long[say more of what went wrong]' '--help[show help]' '1:source:_files -g "*.(f|for|hep)"' \
                '2:history or page:_files' '3:page:_files'
            ;;
        picture)
            _arguments '--choices=[choices of a run that is looked at]:choices:_files' '--seed=[lots of a run that is looked at]:seed:' '--arena=[cells of storage]:cells:' \
                '--steps=[entries of the history]:entries:' '--long[say more of what went wrong]' '--help[show help]' '1:source:_files -g "*.(f|for|hep)"' \
                '2:history or picture:_files' '3:picture:_files'
            ;;
        why)
            _arguments '--choices=[choices of a run that is looked at]:choices:_files' '--seed=[lots of a run that is looked at]:seed:' '--format=[how to write it]:format:(json)' '--arena=[cells of storage]:cells:' \
                '--steps=[entries of the history]:entries:' '--color=[when lines have colors]:when:((auto\:terminals always\:always never\:never))' '--long[say more of what went wrong]' '--help[show help]' '1:source:_files -g "*.(f|for|hep)"' \
                '2:history:_files'
            ;;
        races)
            _arguments '--choices=[choices of a run that is looked at]:choices:_files' '--seed=[lots of a run that is looked at]:seed:' '--arena=[cells of storage]:cells:' \
                '--steps=[entries of the history]:entries:' '--color=[when lines have colors]:when:((auto\:terminals always\:always never\:never))' '--long[say more of what went wrong]' '--help[show help]' '1:source:_files -g "*.(f|for|hep)"' \
                '2:history:_files'
            ;;
        cover)
            _arguments '--runs=[runs by lots, 1 to 1000000]:runs:' '--format=[how to write it]:format:(lcov)' '--choices=[choices of a run that is looked at]:choices:_files' '--seed=[lots of a run that is looked at]:seed:' '--arena=[cells of storage]:cells:' \
                '--steps=[entries of the history]:entries:' '--color=[when lines have colors]:when:((auto\:terminals always\:always never\:never))' '--long[say more of what went wrong]' '--help[show help]' '1:source:_files -g "*.(f|for|hep)"' \
                '*:history:_files'
            ;;
        diff)
            _arguments '--choices=[choices of a run that is looked at]:choices:_files' '*--seed=[lots of a run that is looked at]:seed:' '--arena=[cells of storage]:cells:' \
                '--steps=[entries of the history]:entries:' '--color=[when lines have colors]:when:((auto\:terminals always\:always never\:never))' '--long[say more of what went wrong]' '--help[show help]' '1:source:_files -g "*.(f|for|hep)"' \
                '2:history:_files' '3:history:_files'
            ;;
        state)
            _arguments '--at=[after how many entries]:entries:' '--choices=[choices of a run that is looked at]:choices:_files' '--seed=[lots of a run that is looked at]:seed:' '--format=[how to write it]:format:(json)' '--arena=[cells of storage]:cells:' \
                '--steps=[entries of the history]:entries:' '--color=[when lines have colors]:when:((auto\:terminals always\:always never\:never))' '--long[say more of what went wrong]' '--help[show help]' '1:source:_files -g "*.(f|for|hep)"' \
                '2:history:_files'
            ;;
        trace)
            _arguments '--from=[first entry]:entry:' '--to=[last entry]:entry:' '--process=[process by its number]:process:' \
                '--cell=[name of a variable]:name:' '--lanes[draw lanes of processes]' '--width=[columns of the lanes]:columns:' \
                '--format=[how to write it]:format:(json)' '--choices=[choices of a run that is looked at]:choices:_files' '--seed=[lots of a run that is looked at]:seed:' '--arena=[cells of storage]:cells:' \
                '--steps=[entries of the history]:entries:' '--color=[when lines have colors]:when:((auto\:terminals always\:always never\:never))' '--long[say more of what went wrong]' '--help[show help]' '1:source:_files -g "*.(f|for|hep)"' \
                '2:history:_files'
            ;;
        explain)
            _arguments '--long[say more of what went wrong]' '--help[show help]' '1:number or name:(101 102 103 104 105 106 107 201 202 203 204 205 301 302 303 304 305 306 307 308 309 310 311 312 401 402 501 506 601 602 603 701 702 703 704 705 OVERFLOW DIVIDE RANGE UNDEFINED SHAPE STEP FAULT WAITING STOPPED ARENA NO WORKERS READ WRITE REFUSED STILL WARNING RACE EXPECTED DEADLOCK CIRCLE SEED STATUS WORDS)' \
                '*:its next word:(ARENA STEP FULL LIMIT MEMORY REFUSED FAULT RUNNING 0 1 2 3 4 5 6 7 8 9 10 70)'
            ;;
        from)
            _arguments '-o[file that gets the source]:source:_files' '--fixed[statements begin in column 7]' '--free[statements begin anywhere]' \
                '--capitals[write small letters as capitals]' '--help[show help]' '1:listing:_files'
            ;;
        help)
            _arguments '1:command:(check run sample explore replay state trace page picture why races cover diff list explain from)'
            ;;
    esac
}

if [[ $funcstack[1] == _hepf ]]; then
    _hepf "$@"
else
    compdef _hepf hepf hepf-unproved
fi
