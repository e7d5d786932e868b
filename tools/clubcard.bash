# Completion in bash of clubcard's commands, and of names of files where a word is one (docs/FORMATS.md, "Words").
# Numbers, keys and serials aren't completed. To be read by a shell of one's own:
#
#     . tools/clubcard.bash
#
# shellcheck shell=bash

_clubcard() {
    local word=${COMP_WORDS[COMP_CWORD]}
    COMPREPLY=()
    if ((COMP_CWORD == 1)); then
        mapfile -t COMPREPLY < <(compgen -W "snapshot delta rebase rebase-without split start install query query-cert \
            check show rehearse sample gather merge cut audit place device-format device-install device-query" -- "$word")
        return
    fi
    # A command, and the places of the words behind it that name files.
    case ${COMP_WORDS[1]}:$COMP_CWORD in
    snapshot:[2-4] | delta:[2-5] | start:[23] | install:[2-4] | query:2 | query-cert:[2-4] | check:2 | show:2 | sample:4) ;;
    rebase:[245] | rebase-without:[245] | split:[278] | device-format:[24] | device-install:[23] | device-query:2) ;;
    gather:2 | gather:[4-9] | gather:[1-9][0-9] | gather:[1-9][0-9][0-9] | gather:10[01][0-9] | gather:102[0-7]) ;;
    cut:[3-9] | cut:[1-9][0-9] | cut:[1-9][0-9][0-9] | cut:10[01][0-9] | cut:102[0-6]) ;;
    merge:[2-9] | merge:[1-9][0-9] | merge:[1-9][0-9][0-9] | merge:10[01][0-9] | merge:102[0-7]) ;;
    rehearse:2 | rehearse:[4-9] | rehearse:[1-5][0-9] | rehearse:6[0-7]) ;;
    audit:[2-9] | audit:[1-5][0-9] | audit:6[0-6]) ;;
    place:2 | cut:2 | split:4)
        mapfile -t COMPREPLY < <(compgen -W "issuer identity" -- "$word")
        return
        ;;
    *) return ;;
    esac
    mapfile -t COMPREPLY < <(compgen -f -- "$word")
    # Marks folders, and quotes spaces. It fails where the function is called by hand.
    compopt -o filenames 2>/dev/null
}

# A word such as ./clubcard is looked up as it stands, then without its folders.
complete -F _clubcard clubcard ./clubcard
