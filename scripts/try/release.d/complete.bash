#!/usr/bin/env bash
# complete.bash COMPLETION LINE WORD..: prints what a completion offers at the end of a line, a word each. The words are those of the
# line as readline cuts them, with the last one that is being written. Needs: bash-completion.
set -u
. /usr/share/bash-completion/bash_completion
. "$1"
COMP_LINE=$2 COMP_POINT=${#2}
shift 2
COMP_WORDS=("$@") COMP_CWORD=$(($# - 1)) COMPREPLY=()
function=$(complete -p "$1" | sed 's/.*-F \([^ ]*\) .*/\1/')
# Outside a completion `compopt` has nothing to set.
"$function" "$1" "${COMP_WORDS[COMP_CWORD]}" '' 2>/dev/null
printf '%s\n' "${COMPREPLY[@]-}"
