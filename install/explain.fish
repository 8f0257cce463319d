# Completion of the words of explain for fish.

# The functions of the first program among the words.
function __explain_functions
    for word in (commandline -opc)
        if string match -q '*.raml' -- $word
            raml types $word 2>/dev/null | cut -d ' ' -f 1
            return
        end
    end
end

complete -c explain -n __fish_use_subcommand -f -a check -d 'what is wrong with a source'
complete -c explain -n __fish_use_subcommand -f -a bounds -d 'bounds as algebra'
complete -c explain -n __fish_use_subcommand -f -a budget -d 'which declared bounds are kept'
complete -c explain -n __fish_use_subcommand -f -a verify -d 'whether a certificate holds'
complete -c explain -n __fish_use_subcommand -f -a why -d 'why there is no bound'
complete -c explain -n __fish_use_subcommand -f -a plot -d 'a picture of runs below their bound'
complete -c explain -n __fish_use_subcommand -f -a profile -d 'how often lines are run'
complete -c explain -n __fish_use_subcommand -f -a lsp -d 'serve an editor'
complete -c explain -n __fish_use_subcommand -f -a help -d 'print help'
complete -c explain -n '__fish_seen_subcommand_from help' -f -a 'check bounds budget verify why plot profile lsp help'
complete -c explain -l help -s h -d 'print help'
complete -c explain -n __fish_use_subcommand -l version -s V -d 'print the version'
complete -c explain -n '__fish_seen_subcommand_from check' -l data -x -a '(__explain_functions)' -d 'data of a function'
complete -c explain -n '__fish_seen_subcommand_from bounds budget why plot profile lsp' -l degree -x -a '1 2 3 4' -d 'degree of the bounds'
complete -c explain -n '__fish_seen_subcommand_from lsp' -l budget -x -d 'give up an analysis of more pivots'
complete -c explain -n '__fish_seen_subcommand_from lsp' -l log -r -d 'leave what the editor sent'
complete -c explain -n '__fish_seen_subcommand_from bounds budget' -l json -d 'objects of JSON'
complete -c explain -n '__fish_seen_subcommand_from bounds why profile' -l function -x -a '(__explain_functions)' -d 'one function'
complete -c explain -n '__fish_seen_subcommand_from bounds profile' -l at -x -d 'bounds at these sizes'
complete -c explain -n '__fish_seen_subcommand_from bounds' -l within -x -a 'ticks= cells= work=' -d 'the greatest size at which no more is spent'
complete -c explain -n '__fish_seen_subcommand_from bounds' -l width -x -d 'columns of a line'
complete -c explain -n '__fish_seen_subcommand_from budget why' -l write -r -d 'write what is found'
complete -c explain -n '__fish_seen_subcommand_from budget why plot' -l force -d 'write over a file that is there'
complete -c explain -n '__fish_seen_subcommand_from why plot' -l meter -x -a 'ticks cells work' -d 'one meter alone'
complete -c explain -n '__fish_seen_subcommand_from plot' -l sizes -x -d 'sizes of arguments'
complete -c explain -n '__fish_seen_subcommand_from plot' -l seed -x -d 'what random arguments are made from'
complete -c explain -n '__fish_seen_subcommand_from plot' -l data -r -d 'files of arguments'
complete -c explain -n '__fish_seen_subcommand_from plot' -l of -x -d 'the parameter whose size is drawn'
complete -c explain -n '__fish_seen_subcommand_from plot' -l output -s o -r -d 'write the picture'
