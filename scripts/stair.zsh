#compdef stair
# Completes the words of stair in zsh. Made from scripts/commands by scripts/completion: change these.
_stair() {
  local at=$((CURRENT - 1))
  local -a line=("${(@)words}") offered=()
  if ((at > 3)) && [[ $line[2] == --wait ]]; then line=(stair . "${(@)line[5,-1]}") at=$((at - 2)); fi
  case $at:$line[2]:$line[3] in
    1:-*) offered=('--wait:waits until no other program has FOLDER, and runs ..' '--health:prints the health of an array in one line' '--metrics:prints it as metrics for Prometheus' '--build:builds and proves the program, and does not run it' '--install:installs the program below PREFIX, or /usr/local' '--uninstall:removes what was installed there' '--help:prints this text' '--version:prints the version, the commit and the kit') ;;
    1:*) _path_files -/ ;;
    2:--install:-*) offered=('--native:the same, built for the processor of this machine') ;;
    3:--install:--native) _path_files -/ ;;
    3:--wait:*) _path_files -/ ;;
    2:--health:*) _path_files -/ ;;
    2:--metrics:*) _path_files -/ ;;
    2:--install:*) _path_files -/ ;;
    2:--uninstall:*) _path_files -/ ;;
    *:--wait:*) : ;;
    *:--health:*) : ;;
    *:--metrics:*) : ;;
    *:--build:*) : ;;
    *:--install:*) : ;;
    *:--uninstall:*) : ;;
    *:--help:*) : ;;
    *:--version:*) : ;;
    2:*) offered=('create:creates an array of zeros from a geometry text' 'show:shows the array and the state of its devices' 'write:writes COUNT blocks from BLOCK on' 'read:reads COUNT blocks from BLOCK on' 'scrub:reads all cells, and restores damaged ones' 'replace:replaces the failed device of SLOT, and rebuilds it' 'rebuild:continues an interrupted rebuild' 'freeze:makes the array read-only' 'thaw:makes the array writable again' 'label:labels the array' 'run:runs a script of reads, writes and repairs' 'guard:runs a script until EVENTS events or FENCES fences' 'report:counts the events listed on standard input' 'serve:serves the array to an NBD client' 'exercise:makes COUNT test steps, which overwrite blocks' 'vinit:makes block 0 an empty table of volumes' 'vmake:makes a volume of BLOCKS blocks of zeros' 'vlist:lists the volumes' 'vwrite:writes COUNT blocks of a volume from BLOCK on' 'vread:reads COUNT blocks of a volume from BLOCK on' 'vdrop:drops a volume' 'stripe:encodes the blocks of a stripe' 'check:tells whether a stripe is a codeword' 'restore:restores the erased cells of a stripe' 'plan:prints what the code of a geometry costs') ;;
    3:*:stripe) offered=('standard:an encoder' 'up:an encoder' 'down:an encoder' 'fewest:an encoder') ;;
  esac
  (($#offered)) && _describe word offered
}
if [[ $funcstack[1] == _stair ]]; then _stair "$@"; else compdef _stair stair; fi
