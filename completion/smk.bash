# Completion of smk for bash: options, rules of the workflow, and files.

_smk_options='-c --cores -n --dry-run -s --snakefile -C --config --resources --rerun-incomplete --nolock -k --keep-going -f --force -F
  --forceall -- --unlock --cleanup-metadata --generate --help --version'

# The names of the rules and checkpoints that stand in the workflow's file itself.
_smk_rules() {
  local file
  for file in "$1" Snakefile snakefile workflow/Snakefile workflow/snakefile; do
    if [ -f "$file" ]; then
      sed -nE 's/^(rule|checkpoint)[[:space:]]+([A-Za-z_][A-Za-z0-9_]*)[[:space:]]*:.*/\2/p' "$file"
      return
    fi
  done
}

_smk() {
  local word=${COMP_WORDS[COMP_CWORD]} before='' file='' number
  COMPREPLY=()
  [ "$COMP_CWORD" -gt 0 ] && before=${COMP_WORDS[COMP_CWORD - 1]}
  # behind `=` the option stands before it
  if [ "$word" = = ]; then
    word=''
  elif [ "$before" = = ] && [ "$COMP_CWORD" -gt 1 ]; then
    before=${COMP_WORDS[COMP_CWORD - 2]}
  fi
  for ((number = 1; number < COMP_CWORD; number++)); do
    case ${COMP_WORDS[number]} in
      -s | --snakefile)
        file=${COMP_WORDS[number + 1]}
        [ "$file" != = ] || file=${COMP_WORDS[number + 2]-}
        ;;
      -s?*) file=${COMP_WORDS[number]#-s} ;;
    esac
  done
  case $before in
    -s | --snakefile | --cleanup-metadata)
      mapfile -t COMPREPLY < <(compgen -f -- "$word")
      return
      ;;
    -c | --cores)
      mapfile -t COMPREPLY < <(compgen -W "1 $(nproc 2>/dev/null)" -- "$word")
      return
      ;;
    -C | --config | --resources | --generate) return ;;
  esac
  case $word in
    -*)
      mapfile -t COMPREPLY < <(compgen -W "$_smk_options" -- "$word")
      ;;
    *)
      mapfile -t COMPREPLY < <(
        compgen -W "$(_smk_rules "$file")" -- "$word"
        compgen -f -- "$word"
      )
      ;;
  esac
}

complete -o filenames -F _smk smk
