# Completion of hcproxy's words for bash.
_hcproxy() {
  local word=${COMP_WORDS[COMP_CWORD]} command=${COMP_WORDS[1]-} before=${COMP_WORDS[COMP_CWORD-1]}
  local words='' paths='' given=" ${COMP_WORDS[*]:1:COMP_CWORD-1} " each
  if [ "$COMP_CWORD" = 1 ]; then
    words="demo serve replay draw story check origin --help --version"
  else
    case $command in
      serve)
        case $before in
          --journals) paths=-d ;;
          --held-bytes | --idle | --status | :) ;;
          *)
            words="--journals --access --held-bytes --idle --status --loop --threads" paths=-f
            [[ $given != *" --status "* ]] || words+=" --status-bodies"
            # threads take --idle alone
            [[ ! $given =~ \ --(loop|journals|access|held-bytes|status)\  ]] || words=${words/ --threads/}
            [[ $given != *" --loop "* ]] || words=${words/ --loop/}
            [[ $given != *" --threads "* ]] || words="--idle"
            ;;
        esac
        ;;
      origin | story) [ "$COMP_CWORD" != 2 ] || paths=-f ;;
      check) if [ "$COMP_CWORD" = 2 ]; then words=--origin paths=-f; elif [ "$before" = --origin ]; then paths=-f; fi ;;
      replay) if [ "$before" = --settings ]; then paths=-f; else words="--journal --settings"; fi ;;
    esac
  fi
  COMPREPLY=()
  # what stands there already has no place a second time
  for each in $words; do
    if [[ $each == "$word"* && $given != *" $each "* ]]; then COMPREPLY+=("$each"); fi
  done
  # names of files and folders alone, where no word is begun
  if [ -n "$paths" ] && [[ $word != -* ]]; then
    compopt -o filenames 2>/dev/null
    local found
    mapfile -t found < <(compgen "$paths" -- "$word")
    COMPREPLY+=("${found[@]}")
  fi
}
complete -F _hcproxy hcproxy
