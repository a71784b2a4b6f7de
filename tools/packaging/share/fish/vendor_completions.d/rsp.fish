# The completion of rsp for fish. tools/python rsp_tools.page_tables writes its words, from docs/help.
# The command is the first word, so a script may be called help.
function __rsp_has
    set -l words (commandline -opc)
    test "$words[2]" = $argv[1]
end
complete -c rsp -f
complete -c rsp -n __fish_use_subcommand -a run -d 'Reads a script, and prints a reply to each command'
complete -c rsp -n __fish_use_subcommand -a asm -d 'Assembles source text into a file of words, high byte first'
complete -c rsp -n __fish_use_subcommand -a dis -d 'Prints a file of words, high byte first, as assembly text'
complete -c rsp -n __fish_use_subcommand -a help -d 'Print this message or the help of the given subcommand(s)'
complete -c rsp -n '__fish_use_subcommand' -s h -l help -d 'Print help'
complete -c rsp -n '__fish_use_subcommand' -s V -l version -d 'Print version'
complete -c rsp -n '__rsp_has run' -l rdram -r -F -d 'RDRAM before the run [default: 4194304 zero bytes]'
complete -c rsp -n '__rsp_has run' -l save -r -F -d 'The file for RDRAM after the run, which is overwritten'
complete -c rsp -n '__rsp_has run' -l strict -d 'Ends with status 1 if a reply is a fault'
complete -c rsp -n '__rsp_has run' -l explain -d 'Explains faults; always on if you type at a terminal'
complete -c rsp -n '__rsp_has run' -s h -l help -d 'Print help'
complete -c rsp -n '__rsp_has run' -F
complete -c rsp -n '__rsp_has asm' -l at -x -d 'The address of the first word: 0, 4, .. 4092 [default: 0]'
complete -c rsp -n '__rsp_has asm' -l listing -d 'Prints each word with its address and its source line'
complete -c rsp -n '__rsp_has asm' -l explain -d 'Explains faults'
complete -c rsp -n '__rsp_has asm' -s h -l help -d 'Print help'
complete -c rsp -n '__rsp_has asm' -F
complete -c rsp -n '__rsp_has dis' -l at -x -d 'The address of the first word: 0, 4, .. 4092 [default: 0]'
complete -c rsp -n '__rsp_has dis' -l listing -d 'Prints each word with its address before its text'
complete -c rsp -n '__rsp_has dis' -l labels -d 'Gives labels to the words that jumps and branches lead to'
complete -c rsp -n '__rsp_has dis' -l explain -d 'Explains faults'
complete -c rsp -n '__rsp_has dis' -s h -l help -d 'Print help'
complete -c rsp -n '__rsp_has dis' -F
complete -c rsp -n '__rsp_has help; and test (count (commandline -opc)) -eq 2' -a 'run asm dis'
