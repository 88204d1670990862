# The words of langbench, for fish.

# The operands before the cursor, the command's name among them. Behind a `--` every word is one.
function __langbench_operands
    set -l words (commandline -opc)
    set -l is_ended 0
    set -l is_number 0
    for word in $words[2..-1]
        if test $is_ended = 1
            printf '%s\n' $word
        else if test $is_number = 1
            set is_number 0
        else
            switch $word
                case --
                    set is_ended 1
                case --lookahead
                    set is_number 1
                case '--lookahead=*'
                case '*'
                    printf '%s\n' $word
            end
        end
    end
end

function __langbench_has
    test (count (__langbench_operands)) = $argv[1]
end

function __langbench_takes_files
    set -l operands (__langbench_operands)
    test (count $operands) -ge 2; and test $operands[1] = serve
end

# Files are named by their whole paths.
function __langbench_files
    set -l current (commandline -ct)
    if test -z "$current"
        echo $PWD/
    else if string match -q -- '/*' $current
        __fish_complete_path $current
    end
end

complete -c langbench -f
complete -c langbench -n '__langbench_has 0' -a check -d 'Check a document from standard input'
complete -c langbench -n '__langbench_has 0' -a make -d 'Generate a workspace, to measure builds by'
complete -c langbench -n '__langbench_has 0' -a serve -d 'Answer an editor over standard input and output'
complete -c langbench -n 'not __langbench_has 0' -l lookahead -x -a '1 2 3' -d 'How many kinds of tokens tell ways apart'
complete -c langbench -n '__langbench_has 1' -a '(__fish_complete_suffix .langium)'
complete -c langbench -n __langbench_takes_files -a '(__langbench_files)'
