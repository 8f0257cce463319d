# Completion of the words of raml for fish.

# The functions of the first program among the words.
function __raml_functions
    for word in (commandline -opc)
        if string match -q '*.raml' -- $word
            raml types $word 2>/dev/null | cut -d ' ' -f 1
            return
        end
    end
end

complete -c raml -n __fish_use_subcommand -f -a analyse -d 'bounds of each function'
complete -c raml -n __fish_use_subcommand -f -a certify -d 'the certificate of an analysis'
complete -c raml -n __fish_use_subcommand -f -a verify -d 'check a certificate'
complete -c raml -n __fish_use_subcommand -f -a run -d 'run a function'
complete -c raml -n __fish_use_subcommand -f -a priced -d 'bounds under a table of prices'
complete -c raml -n __fish_use_subcommand -f -a spend -d 'run under a table of prices'
complete -c raml -n __fish_use_subcommand -f -a compare -d 'compare the bounds of two programs'
complete -c raml -n __fish_use_subcommand -f -a contract -d 'check declared bounds'
complete -c raml -n __fish_use_subcommand -f -a powers -d 'bounds as powers of element counts'
complete -c raml -n __fish_use_subcommand -f -a types -d 'the type of each function'
complete -c raml -n __fish_use_subcommand -f -a code -d 'the machine code of each function'
complete -c raml -n __fish_use_subcommand -f -a trial -d 'a made-up program'
complete -c raml -n '__fish_seen_subcommand_from analyse certify run priced compare contract powers' -l degree -x -a '1 2 3 4' -d 'degree of the bounds'
complete -c raml -n '__fish_seen_subcommand_from analyse certify' -l pivot -x -a 'least greatest' -d 'rule of the simplex method'
complete -c raml -n '__fish_seen_subcommand_from run spend' -l steps -x -d 'instructions at most'
complete -c raml -n '__fish_seen_subcommand_from run spend' -l cells -x -d 'cells at most'
complete -c raml -n '__fish_seen_subcommand_from run spend' -a '(__raml_functions)' -d function
