# Completes orgs(1) in fish: commands, options, the folder's files, headings by their paths, states, dates.
# Put it into ~/.config/fish/completions or /usr/share/fish/vendor_completions.d. `orgs complete` has what may stand there.

function __orgs_complete
    set -l words (commandline -opc)
    set -l token (commandline -ct)
    # fish itself takes those that fit the token; it only has to be known whether an option is begun
    set -l begun ''
    string match -q -- '-*' $token; and set begun -
    set -l found (command orgs complete -- $words[2..-1] $begun 2>/dev/null)
    switch "$found[1]"
        case directories
            __fish_complete_directories $token
        case paths
            __fish_complete_path $token
        case '*'
            printf '%s\n' $found[2..-1]
    end
end

complete -c orgs -f -a '(__orgs_complete)'
