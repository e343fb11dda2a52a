# Completions of fish for lrat-check.
complete -c lrat-check -l trace -d 'Show each step as it is checked'
complete -c lrat-check -s h -l help -d 'Print help'
complete -c lrat-check -s V -l version -d 'Print version'
