# Completions of irikit for bash: each command's words, and files after a redirection.
_irikit() {
  local words='' current=${COMP_WORDS[COMP_CWORD]} given=() i
  for ((i = 1; i < COMP_CWORD; i++)); do
    case ${COMP_WORDS[i]} in
      # What comes after it is its file.
      *[\<\>]*) i=$((i + 1)) ;;
      *) given+=("${COMP_WORDS[i]}") ;;
    esac
  done
  case $current in *[\<\>]*) i=$((COMP_CWORD + 1)) current='' ;; esac
  if [ "$i" -gt "$COMP_CWORD" ]; then
    compopt -o filenames 2>/dev/null
    mapfile -t COMPREPLY < <(compgen -f -- "$current")
    return
  fi
  case ${#given[@]}:${given[0]:-}:${given[2]:-} in
    0:*) words='canon parts pairs expand register links docs robots gen --help --version' ;;
    1:--*) ;;
    1:*) words='uri iri' ;;
    2:robots:* | 2:gen:* | 2:--*) ;;
    2:canon:* | 2:pairs:*) words='to scheme' ;;
    2:links:*) words='lax scheme' ;;
    3:canon:to | 3:pairs:to) words=uri ;;
    2:* | 3:robots:* | 3:links:lax | 4:canon:to | 4:pairs:to) words=scheme ;;
  esac
  mapfile -t COMPREPLY < <(compgen -W "$words" -- "$current")
} && complete -F _irikit irikit
