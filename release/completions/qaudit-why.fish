# Completion of qaudit-why for fish.

complete -c qaudit-why -s a -l all -d 'Go on past rules of conduct, and tell of all departures'
complete -c qaudit-why -s j -l json -d 'Write a JSON object for each trace, on one line'
complete -c qaudit-why -s q -l quiet -d 'Write nothing of accepted traces'
complete -c qaudit-why -s r -l rows -d 'Write a JSON object for each line, with the state behind it'
complete -c qaudit-why -s w -l warn -d 'Tell on standard error of what does nothing silently'
complete -c qaudit-why -x -l around -d 'Write so many lines before a refusal or departure too, with the state behind each'
complete -c qaudit-why -s h -l help -d 'Print help'
complete -c qaudit-why -s V -l version -d 'Print version'
