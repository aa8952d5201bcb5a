# What fish completes behind `regdiff`: its options, and files.
complete -c regdiff -l each -d 'Tell each row that has another base, and each of what is alike'
complete -c regdiff -l breaking -d 'Tell what breaks software alone'
complete -c regdiff -l ignore -x -d 'Tell no differences of these properties'
complete -c regdiff -l format -x -a 'text markdown json' -d 'How lines are written'
complete -c regdiff -l top -x -d 'The address map that is the top of both'
complete -c regdiff -s h -l help -d 'Print the options'
complete -c regdiff -s V -l version -d 'Print the version'
