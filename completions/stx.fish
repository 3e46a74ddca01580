# Completions of stx for fish.

complete -c stx -f
complete -c stx -l fuel -x -d 'steps of the sheet for each node of the document'
complete -c stx -l lexeme -x -d 'bytes of the longest piece of markup'
complete -c stx -l instances -x -d 'templates that run at once in one list of nodes'
complete -c stx -l check -d 'only read the sheet'
complete -c stx -l sample -x -d 'take a document that the program makes'
complete -c stx -a '(__fish_complete_suffix .stx)'
