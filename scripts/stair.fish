# Completes the words of stair in fish. Made from scripts/commands by scripts/completion: change these.
function __stair_offers
    set -l line (commandline -opc) (commandline -ct)
    set -l at (math (count $line) - 1)
    if test $at -gt 3; and test "$line[2]" = --wait
        set line stair . $line[5..-1]
        set at (math $at - 2)
    end
    switch "$at:$line[2]:$line[3]"
        case '1:-*'
            printf '%s\t%s\n' '--wait' 'waits until no other program has FOLDER, and runs ..' '--health' 'prints the health of an array in one line' '--metrics' 'prints it as metrics for Prometheus' '--build' 'builds and proves the program, and does not run it' '--install' 'installs the program below PREFIX, or /usr/local' '--uninstall' 'removes what was installed there' '--help' 'prints this text' '--version' 'prints the version, the commit and the kit'
        case '1:*'
            __fish_complete_directories (commandline -ct)
        case '2:--install:-*'
            printf '%s\t%s\n' '--native' 'the same, built for the processor of this machine'
        case '3:--install:--native'
            __fish_complete_directories (commandline -ct)
        case '3:--wait:*'
            __fish_complete_directories (commandline -ct)
        case '2:--health:*'
            __fish_complete_directories (commandline -ct)
        case '2:--metrics:*'
            __fish_complete_directories (commandline -ct)
        case '2:--install:*'
            __fish_complete_directories (commandline -ct)
        case '2:--uninstall:*'
            __fish_complete_directories (commandline -ct)
        case '*:--wait:*'
            true
        case '*:--health:*'
            true
        case '*:--metrics:*'
            true
        case '*:--build:*'
            true
        case '*:--install:*'
            true
        case '*:--uninstall:*'
            true
        case '*:--help:*'
            true
        case '*:--version:*'
            true
        case '2:*'
            printf '%s\t%s\n' 'create' 'creates an array of zeros from a geometry text' 'show' 'shows the array and the state of its devices' 'write' 'writes COUNT blocks from BLOCK on' 'read' 'reads COUNT blocks from BLOCK on' 'scrub' 'reads all cells, and restores damaged ones' 'replace' 'replaces the failed device of SLOT, and rebuilds it' 'rebuild' 'continues an interrupted rebuild' 'freeze' 'makes the array read-only' 'thaw' 'makes the array writable again' 'label' 'labels the array' 'run' 'runs a script of reads, writes and repairs' 'guard' 'runs a script until EVENTS events or FENCES fences' 'report' 'counts the events listed on standard input' 'serve' 'serves the array to an NBD client' 'exercise' 'makes COUNT test steps, which overwrite blocks' 'vinit' 'makes block 0 an empty table of volumes' 'vmake' 'makes a volume of BLOCKS blocks of zeros' 'vlist' 'lists the volumes' 'vwrite' 'writes COUNT blocks of a volume from BLOCK on' 'vread' 'reads COUNT blocks of a volume from BLOCK on' 'vdrop' 'drops a volume' 'stripe' 'encodes the blocks of a stripe' 'check' 'tells whether a stripe is a codeword' 'restore' 'restores the erased cells of a stripe' 'plan' 'prints what the code of a geometry costs'
        case '3:*:stripe'
            printf '%s\t%s\n' 'standard' 'an encoder' 'up' 'an encoder' 'down' 'an encoder' 'fewest' 'an encoder'
    end
end
complete -c stair -f -a '(__stair_offers)'
