# Completion of the words of yew in fish. Copy this file to ~/.config/fish/completions.

# What is due behind the words so far: job, skeleton, kind, file, option, or the name of an option whose value is due.
function __yew_due
    set -l words (commandline -opc)
    set -e words[1]
    set -l count (count $words)
    if test $count = 0
        echo job
        return
    end
    set -l files 0
    switch $words[1]
        case knapsack tsp flow
            set files 1
        case subgraph
            set files 2
        case semigroups make
            set files 0
        case '*'
            return
    end
    if test $count = 1
        if test $words[1] = make
            echo kind
        else
            echo skeleton
        end
    else if test $count -lt (math 2 + $files)
        echo file
    else
        switch $words[-1]
            case --workers --depth --budget --chunk --target --gap --genus --seed --size
                printf '%s\n' $words[-1]
            case '*'
                echo option
        end
    end
end

# Whether this, and no other, is due.
function __yew_is_due
    set -l due (__yew_due)
    test "$due" = "$argv[1]"
end

# Whether a value of this option is due, of which the second word is this one, if one is named.
function __yew_value
    set -l words (commandline -opc)
    __yew_is_due $argv[1]; and begin
        test (count $argv) = 1; or test "$words[3]" = $argv[2]
    end
end

# Whether this option may stand here.
function __yew_option
    __yew_is_due option; or return 1
    set -l words (commandline -opc)
    contains -- $argv[1] $words; and return 1
    # (of a target and a gap one)
    switch $argv[1]
        case --target
            contains -- --gap $words; and return 1
        case --gap
            contains -- --target $words; and return 1
    end
    set -l options
    switch $words[2]
        case make
            set options --seed --size
        case '*'
            set options --report --audit
    end
    switch $words[2]
        case knapsack
            set -a options --target
        case tsp
            set -a options --near --span
        case semigroups
            set -a options --genus
    end
    switch $words[2]:$words[3]
        case make:knapsack make:tsp
            set -a options --solve
        case '*:depth' '*:ordered'
            set -a options --workers --depth
        case '*:budget'
            set -a options --workers --budget
        case '*:steal'
            set -a options --workers --chunk
    end
    switch $words[2]:$words[3]
        case knapsack:sequential knapsack:depth knapsack:budget knapsack:steal tsp:sequential tsp:depth tsp:budget tsp:steal flow:sequential flow:depth flow:budget flow:steal
            set -a options --gap
    end
    contains -- $argv[1] $options
end

complete -c yew -f
complete -c yew -n '__yew_is_due file' -F

complete -c yew -n '__yew_is_due job' -a knapsack -d 'the best profit of items within a weight'
complete -c yew -n '__yew_is_due job' -a tsp -d 'a shortest tour of cities'
complete -c yew -n '__yew_is_due job' -a subgraph -d 'a map of one graph into another'
complete -c yew -n '__yew_is_due job' -a semigroups -d 'how many numerical semigroups there are of each genus'
complete -c yew -n '__yew_is_due job' -a flow -d 'an order of jobs that ends first on a row of machines'
complete -c yew -n '__yew_is_due job' -a make -d 'the text of an instance that a seed determines'

complete -c yew -n '__yew_is_due skeleton' -a sequential -d 'one worker, in preorder'
complete -c yew -n '__yew_is_due skeleton' -a depth -d 'each node down to a depth becomes a task'
complete -c yew -n '__yew_is_due skeleton' -a budget -d 'a task gives work away after some backtracks'
complete -c yew -n '__yew_is_due skeleton' -a steal -d 'an idle worker asks another for work'
complete -c yew -n '__yew_is_due skeleton' -a ordered -d 'tasks in the order of their numbers'

complete -c yew -n '__yew_is_due kind' -a knapsack -d 'items of random profit and weight'
complete -c yew -n '__yew_is_due kind' -a tsp -d 'cities of random distances'
complete -c yew -n '__yew_is_due kind' -a lad -d 'a random graph'

complete -c yew -n '__yew_option --workers' -a --workers -d 'number of workers, 1 to 64'
complete -c yew -n '__yew_option --depth' -a --depth -d 'depth, 1 to 255'
complete -c yew -n '__yew_option --budget' -a --budget -d 'backtracks, 1 to 4294967295'
complete -c yew -n '__yew_option --chunk' -a --chunk -d 'what is given, one or all'
complete -c yew -n '__yew_option --target' -a --target -d 'profit, 0 to 1099511627774'
complete -c yew -n '__yew_option --gap' -a --gap -d 'permitted gap, 0 to 1099511627774'
complete -c yew -n '__yew_option --genus' -a --genus -d 'genus, 0 to 40'
complete -c yew -n '__yew_option --near' -a --near -d 'nearest cities first'
complete -c yew -n '__yew_option --span' -a --span -d 'a bound by least spanning trees'
complete -c yew -n '__yew_option --report' -a --report -d 'totals behind the answer'
complete -c yew -n '__yew_option --audit' -a --audit -d 'what became of every node'
complete -c yew -n '__yew_option --seed' -a --seed -d 'seed, 0 to 18446744073709551615'
complete -c yew -n '__yew_option --size' -a --size -d 'items, cities or vertices'
complete -c yew -n '__yew_option --solve' -a --solve -d 'search what is made'

# Where a number is due the ends of its range are offered.
complete -c yew -n '__yew_value --workers' -a '1 64' -d 'number of workers, 1 to 64'
complete -c yew -n '__yew_value --depth' -a '1 255' -d 'depth, 1 to 255'
complete -c yew -n '__yew_value --budget' -a '1 4294967295' -d 'backtracks, 1 to 4294967295'
complete -c yew -n '__yew_value --chunk' -a 'one all' -d 'what is given, one or all'
complete -c yew -n '__yew_value --target' -a '0 1099511627774' -d 'profit, 0 to 1099511627774'
complete -c yew -n '__yew_value --gap' -a '0 1099511627774' -d 'permitted gap, 0 to 1099511627774'
complete -c yew -n '__yew_value --genus' -a '0 40' -d 'genus, 0 to 40'
complete -c yew -n '__yew_value --seed' -a '0 18446744073709551615' -d 'seed, 0 to 18446744073709551615'
complete -c yew -n '__yew_value --size knapsack' -a '1 256' -d 'items, 1 to 256'
complete -c yew -n '__yew_value --size tsp' -a '2 60' -d 'cities, 2 to 60'
complete -c yew -n '__yew_value --size lad' -a '0 1024' -d 'vertices, 0 to 1024'
