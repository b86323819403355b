# Completion of netlog-to-qlog for fish.

complete -c netlog-to-qlog -F
complete -c netlog-to-qlog -l version -d 'Prints the version'
complete -c netlog-to-qlog -l help -d 'Say what the options are'
