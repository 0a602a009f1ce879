# Completion of prowcurl for bash. Commands and options are what the tool's own help names.
_prowcurl() {
    local word=${COMP_WORDS[COMP_CWORD]} before=${COMP_WORDS[COMP_CWORD - 1]} command=${COMP_WORDS[1]-}
    local program=${COMP_WORDS[0]} words=
    COMPREPLY=()
    if [ "$COMP_CWORD" -eq 1 ] || { [ "$COMP_CWORD" -eq 2 ] && [ "$command" = help ]; }; then
        mapfile -t COMPREPLY < <(compgen -W "$("$program" help 2>/dev/null |
            sed -n 's/^  \([a-z-]*\) .*/\1/p')" -- "$word")
        return
    fi
    if [[ $word == --* ]]; then
        mapfile -t COMPREPLY < <(compgen -W "$("$program" help "$command" 2>/dev/null |
            sed -n 's/^  \(--[a-z-]*\).*/\1/p')" -- "$word")
        return
    fi
    case $command.$COMP_CWORD in
        set.3 | get.3) words="classes rules prices waivers" ;;
        export.3) words="pgm grid tif leaves bits hlq" ;;
    esac
    case $before in
        --office) words="0 1" ;;
        --side) words="1 2 4 8 16 32 64 128 256 512 1024" ;;
        --survey) words=$("$program" info "${COMP_WORDS[2]-}" --csv 2>/dev/null | sed -n '2,$s/,.*//p') ;;
        --scale | --slots | --nodata | --filler | --class | --else | --note | --wait | --as | --taken | --cell | \
            --west | --north | --sheet | --by) return ;;
    esac
    if [ -n "$words" ]; then mapfile -t COMPREPLY < <(compgen -W "$words" -- "$word")
    else mapfile -t COMPREPLY < <(compgen -f -- "$word"); fi
}
complete -o filenames -F _prowcurl prowcurl
