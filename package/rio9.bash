# Completions of rio9 for bash: its commands, and the options of each.
_rio9() {
	local word=${COMP_WORDS[COMP_CWORD]} words
	case $COMP_CWORD-${COMP_WORDS[1]} in
	1-*) words="replay mirror alone serve gen text desk" ;;
	*-replay) words="--size --chan --screen" ;;
	*-mirror) words="--size --chan" ;;
	*-alone) words="--conn --size --chan" ;;
	*-serve) words="--listen --conns --workers --size --chan" ;;
	*-text) words="--cols --rows" ;;
	esac
	mapfile -t COMPREPLY < <(compgen -W "$words" -- "$word")
}
complete -F _rio9 rio9
