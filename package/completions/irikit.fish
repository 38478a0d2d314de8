# Completions of irikit for fish: each command's words; fish itself completes files after a redirection.
# Whether that many words stand before the cursor, without redirections and their files, and the first after irikit is one of these, if
# any are named.
function __irikit_has -a count
    set -l given (commandline -pc | string replace -r '\S*$' '' | string replace -ra '[0-9]*[<>]+\s*\S+' '' | string match -ra '\S+')
    test (count $given) -eq $count; and begin
        test (count $argv) -eq 1; or contains -- $given[2] $argv[2..-1]
    end
end

complete -c irikit -f
complete -c irikit -n '__irikit_has 1' -a canon -d 'canonical texts of references against a base'
complete -c irikit -n '__irikit_has 1' -a parts -d 'canonical texts and their components, as JSON'
complete -c irikit -n '__irikit_has 1' -a pairs -d 'canonical texts of links, each against its own page'
complete -c irikit -n '__irikit_has 1' -a expand -d 'canonical texts of URI templates'
complete -c irikit -n '__irikit_has 1' -a register -d 'each link once, with the numbers of its lines'
complete -c irikit -n '__irikit_has 1' -a links -d 'the links of Link header fields'
complete -c irikit -n '__irikit_has 1' -a docs -d 'canonical texts of templates with their variables in JSON'
complete -c irikit -n '__irikit_has 1' -a robots -d 'which links a crawler may fetch'
complete -c irikit -n '__irikit_has 1' -a gen -d 'a known amount of work'
complete -c irikit -n '__irikit_has 1' -a --help -d 'the commands'
complete -c irikit -n '__irikit_has 1' -a --version -d 'the version'
complete -c irikit -n '__irikit_has 2 canon parts pairs expand register links docs robots gen' -a 'uri iri'
complete -c irikit -n '__irikit_has 3 canon pairs' -a 'to scheme'
complete -c irikit -n '__irikit_has 3 parts' -a scheme
complete -c irikit -n '__irikit_has 4 canon pairs; and string match -q "* to *" -- (commandline -pc)' -a uri
complete -c irikit -n '__irikit_has 5 canon pairs; and string match -q "* to uri *" -- (commandline -pc)' -a scheme
complete -c irikit -n '__irikit_has 3 links' -a lax
complete -c irikit -n '__irikit_has 4 links; and string match -q "* lax *" -- (commandline -pc)' -a scheme
complete -c irikit -n '__irikit_has 3 parts expand register links docs; or __irikit_has 4 robots' -a scheme
