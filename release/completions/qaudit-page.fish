# Completion of qaudit-page for fish.

complete -c qaudit-page -F
complete -c qaudit-page -l from -x -d 'The first line that is shown'
complete -c qaudit-page -l to -x -d 'The last line that is shown'
complete -c qaudit-page -l title -x -d 'The title of the page'
complete -c qaudit-page -l output -r -d 'Where the page is written'
complete -c qaudit-page -l dygraphs -r -d 'The script of dygraphs 2.2'
complete -c qaudit-page -l program -r -d 'The program qaudit-why'
complete -c qaudit-page -l convert -x -d 'Options of qlog-to-trace for logs'
complete -c qaudit-page -l converter -r -d 'The program qlog-to-trace'
complete -c qaudit-page -l version -d 'Prints the version'
complete -c qaudit-page -l help -d 'Say what the options are'
