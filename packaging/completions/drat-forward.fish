# Completions of fish for drat-forward.
complete -c drat-forward -l binary -d 'Read the proof in the binary form'
complete -c drat-forward -l trace -d 'Show each step as it is checked'
complete -c drat-forward -l strict -d 'Refuse a deletion of a clause that is not alive'
complete -c drat-forward -l pr -d 'Accept additions with a witness, by propagation redundancy (PR)'
complete -c drat-forward -l keep-units -d 'Ignore deletions of reason clauses of root-level literals'
complete -c drat-forward -s h -l help -d 'Print help'
complete -c drat-forward -s V -l version -d 'Print version'
