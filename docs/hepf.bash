# Completion of hepf's words for bash: `source docs/hepf.bash`.

# Offers what `compgen` finds for these words that begins with $word.
_hepf_offer() {
    mapfile -t COMPREPLY < <(compgen "$@" -- "$word")
}

# Offers the folders and the files of sources that begin with $word.
_hepf_offer_sources() {
    mapfile -t COMPREPLY < <(
        compgen -d -- "$word"
        compgen -f -X '!*.f' -- "$word"
        compgen -f -X '!*.for' -- "$word"
        compgen -f -X '!*.hep' -- "$word"
    )
}

# Whether a file is named already behind the command, which has this place.
_hepf_has_file() {
    local index
    for ((index = $1 + 1; index < COMP_CWORD; index++)); do
        case ${COMP_WORDS[index]} in
            --long | --warn | --progress | --expect-one | --lanes | --fixed | --free | --capitals | --help) ;;
            --*)
                ((index += 1))
                [[ ${COMP_WORDS[index]} != = ]] || ((index += 1))
                ;;
            *) return 0 ;;
        esac
    done
    return 1
}

_hepf() {
    local word=${COMP_WORDS[COMP_CWORD]} before=${COMP_WORDS[COMP_CWORD - 1]} options
    COMPREPLY=()
    # In `--history=FILE` the sign is a word of its own.
    [[ $before != = ]] || before=${COMP_WORDS[COMP_CWORD - 2]}
    [[ $word != = ]] || word=
    case $before in
        --arena | --at | --from | --to | --process | --cell | --width | --steps | --workers | --seed | --runs | --states | --expect-status) return ;;
        --format)
            case " ${COMP_WORDS[*]} " in
                *" cover "*) _hepf_offer -W lcov ;;
                *" check "*) _hepf_offer -W "gnu json" ;;
                *) _hepf_offer -W json ;;
            esac
            return
            ;;
        --color)
            _hepf_offer -W "auto always never"
            return
            ;;
        --choices | --follow | --history | --keep | -o)
            _hepf_offer -f
            return
            ;;
    esac
    # Where the command stands.
    local at=1
    [[ ${COMP_WORDS[1]} != --long ]] || at=2
    if ((COMP_CWORD <= at)); then
        _hepf_offer -W "check run sample explore replay state trace page picture why races cover diff list explain from help --long --help --version"
        return
    fi
    case ${COMP_WORDS[at]} in
        check) options="--warn --format --color --long --help" ;;
        list) options="--color --long --help" ;;
        run) options="--arena --steps --workers --seed --choices --follow --history --color --long --help" ;;
        sample) options="--runs --seed --arena --steps --keep --format --progress --color --long --help" ;;
        explore) options="--states --arena --expect-one --expect-status --keep --progress --color --long --help" ;;
        replay) options="--arena --color --long --help" ;;
        page) options="--from --to --choices --seed --arena --steps --long --help" ;;
        picture) options="--choices --seed --arena --steps --long --help" ;;
        races | diff) options="--choices --seed --arena --steps --color --long --help" ;;
        cover) options="--choices --seed --runs --format --arena --steps --color --long --help" ;;
        why) options="--choices --seed --format --arena --steps --color --long --help" ;;
        state) options="--at --choices --seed --format --arena --steps --color --long --help" ;;
        trace) options="--from --to --process --cell --lanes --width --format --choices --seed --arena --steps --color --long --help" ;;
        explain)
            if ((COMP_CWORD == at + 1)); then
                options="--long --help 101 102 103 104 105 106 107 201 202 203 204 205 301 302 303 304 305 306 307 308 309 310 311 312 401 402 501 506 601 602 603 701 702 703 704 705 OVERFLOW DIVIDE RANGE UNDEFINED SHAPE STEP FAULT WAITING STOPPED ARENA NO WORKERS READ WRITE REFUSED STILL WARNING RACE EXPECTED DEADLOCK CIRCLE SEED STATUS WORDS"
            else
                options="ARENA STEP FULL LIMIT MEMORY REFUSED FAULT RUNNING 0 1 2 3 4 5 6 7 8 9 10 70"
            fi
            # Small letters name the same.
            [[ $word != [a-z]* ]] || options=${options,,}
            _hepf_offer -W "$options"
            return
            ;;
        from) options="--fixed --free --capitals --help" ;;
        help)
            _hepf_offer -W "check run sample explore replay state trace page picture why races cover diff list explain from"
            return
            ;;
        *) return ;;
    esac
    if [[ $word == -* ]]; then
        _hepf_offer -W "$options"
    elif _hepf_has_file "$at"; then
        _hepf_offer -f
    else
        _hepf_offer_sources
    fi
}

complete -o filenames -F _hepf hepf ./hepf ./hepf-unproved
