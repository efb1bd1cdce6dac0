# Completion in bash for ucdshop, ucdshop_more and ucdshop_look, installed or in their checkout: commands, then the folders and files
# that each of them takes.

_ucdshop() {
    local word=${COMP_WORDS[COMP_CWORD]} place=$COMP_CWORD commands='derive apply make' kind
    case ${COMP_WORDS[0]##*/} in
        ucdshop_more) commands='desk undo conform ages' ;;
        ucdshop_look) commands='ask show check changes' ;;
    esac
    # only the launcher, beside which the crates lie, has more
    if [ "$place" -eq 1 ] && [ -e "${COMP_WORDS[0]%/*}/crates.txt" ]; then
        [ "$commands" != 'derive apply make' ] || commands+=' desk undo conform ages ask show check changes'
        commands+=' --help --version --build --unproved explain'
    fi
    # after --unproved stands a command with its arguments
    if [ "$place" -gt 1 ] && [ "${COMP_WORDS[1]}" = --unproved ]; then
        place=$((place - 1))
    fi
    case ${COMP_WORDS[COMP_CWORD - place + 1]}:$place in
        *:1) mapfile -t COMPREPLY < <(compgen -W "$commands" -- "$word"); return ;;
        derive:[23] | apply:[245] | make:3 | explain:3 | desk:[24] | undo:[24] | conform:[24] | ages:* | ask:2 | show:2 | check:[24] | changes:2) kind=-d ;;
        apply:3 | desk:3 | undo:3 | conform:3 | explain:4 | check:3 | changes:3) kind=-f ;;
        *) COMPREPLY=(); return ;;
    esac
    # readline quotes names and puts slashes; outside of a completion there is no readline
    compopt -o filenames 2>/dev/null
    mapfile -t COMPREPLY < <(compgen "$kind" -- "$word")
}
complete -F _ucdshop ucdshop ucdshop_more ucdshop_look
