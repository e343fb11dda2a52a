# Completions of fish for model-check.
complete -c model-check -s h -l help -d 'Print help'
complete -c model-check -s V -l version -d 'Print version'
