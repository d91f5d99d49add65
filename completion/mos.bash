# Completion of mos and its helpers for bash.

_mos_words() {
  local word
  COMPREPLY=()
  while IFS= read -r word; do COMPREPLY+=("$word"); done < <(compgen -W "$1" -- "$2")
}

_mos_files() {
  local word
  COMPREPLY=()
  while IFS= read -r word; do COMPREPLY+=("$word"); done < <(compgen -f -- "$1")
  compopt -o filenames 2>/dev/null
}

# The applications, as the usage line of mos has them.
_mos_apps() {
  local mos=mos
  [ "${COMP_WORDS[0]##*/}" = mos ] && mos=${COMP_WORDS[0]/#\~/$HOME}
  "$mos" - 2>&1 </dev/null | sed -n 's/^mos: usage: .*--app \([^]]*\)\].*/\1/p' | tr '|' ' '
}

_mos() {
  local at=${COMP_WORDS[COMP_CWORD]} before=${COMP_WORDS[COMP_CWORD - 1]} more
  # A name with its value behind = comes as three words.
  [ "$at" = = ] && at=
  [ "$before" = = ] && before=${COMP_WORDS[COMP_CWORD - 2]}
  case $before in
    --app) _mos_words "$(_mos_apps)" "$at" ;;
    --emit) _mos_words "report forward" "$at" ;;
    --by) _mos_words "bytes packets again time" "$at" ;;
    --workers) _mos_words "1 2 4 8 16" "$at" ;;
    --script) _mos_files "$at" ;;
    --make | --top) COMPREPLY=() ;;
    *)
      case ${COMP_WORDS[0]##*/} in
        mos) more="--app --workers --script --emit --make" ;;
        mos-table) more="--top --by --json --html --script --workers --help" ;;
        mos-fields) more="--short --help" ;;
        mos-explain) more="--app --help" ;;
        *) more=--help ;;
      esac
      case $at in
        -*) _mos_words "$more" "$at" ;;
        *) if [ "${COMP_WORDS[0]##*/}" = mos ]; then _mos_words "$more" "$at"; else _mos_files "$at"; fi ;;
      esac
      ;;
  esac
}

complete -F _mos mos mos-table mos-fields mos-ethernet mos-split mos-many mos-explain
