# Completion of isort for fish: its options, their values, and Python files.

complete -c isort -f
complete -c isort -k -a "(__fish_complete_suffix .py | string match -r '.*(?:\.pyi?|/)\$')"

complete -c isort -s h -l help -d 'Print help'

complete -c isort -l identify -d 'List the imports, and sort nothing'
complete -c isort -l unique -d 'List only the first of equal imports'
complete -c isort -l packages -d 'List only the first import of each package'
complete -c isort -l modules -d 'List only the first import of each module'
complete -c isort -l attributes -d 'List only the first import of each attribute of a module'
complete -c isort -l top-only -d 'List only the imports before the first function or class'

complete -c isort -s c -l check-only -d 'Change nothing, and say which files are not sorted'
complete -c isort -l check -d 'The same as --check-only'
complete -c isort -s d -l stdout -d 'Write the sorted text to standard output'

complete -c isort -l settings-file -r -f -k -a "(__fish_complete_suffix .toml | string match -r '.*(?:\.toml|/)\$')" -d 'Read the settings from this file'
complete -c isort -l profile -x -a black -d 'Start from the settings of a profile'
complete -c isort -s l -l line-length -x -d 'Wrap imports longer than this'
complete -c isort -s m -l multi-line -x -a '0 1 2 3' -d 'How to wrap'
