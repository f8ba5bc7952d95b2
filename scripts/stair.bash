# Completes the words of stair in bash. Made from scripts/commands by scripts/completion: change these.
# shellcheck shell=bash
_stair() {
  local at=$COMP_CWORD words=("${COMP_WORDS[@]}") offered=()
  COMPREPLY=()
  if [ "$at" -gt 3 ] && [ "${words[1]}" = --wait ]; then words=(stair . "${words[@]:4}") at=$((at - 2)); fi
  if [[ ${COMP_WORDS[COMP_CWORD - 1]} == *[\<\>] ]]; then
    offered=(-f)
  else
    case $at:${words[1]}:${words[2]-} in
      1:-*) offered=(-W '--wait --health --metrics --build --install --uninstall --help --version') ;;
      1:*) offered=(-d) ;;
      2:--install:-*) offered=(-W '--native') ;;
      3:--install:--native) offered=(-d) ;;
      3:--wait:*) offered=(-d) ;;
      2:--health:*) offered=(-d) ;;
      2:--metrics:*) offered=(-d) ;;
      2:--install:*) offered=(-d) ;;
      2:--uninstall:*) offered=(-d) ;;
      *:--wait:*) : ;;
      *:--health:*) : ;;
      *:--metrics:*) : ;;
      *:--build:*) : ;;
      *:--install:*) : ;;
      *:--uninstall:*) : ;;
      *:--help:*) : ;;
      *:--version:*) : ;;
      2:*) offered=(-W 'create show write read scrub replace rebuild freeze thaw label run guard report serve exercise vinit vmake vlist vwrite vread vdrop stripe check restore plan') ;;
      3:*:stripe) offered=(-W 'standard up down fewest') ;;
    esac
  fi
  [ "${#offered[@]}" != 0 ] || return 0
  # So bash quotes names of files, and puts a slash after a folder's. Outside of a completion the call fails.
  [ "${#offered[@]}" != 1 ] || compopt -o filenames 2> /dev/null
  mapfile -t COMPREPLY < <(compgen "${offered[@]}" -- "${COMP_WORDS[COMP_CWORD]}")
}
complete -F _stair stair ./stair
