# Made by scripts/tools/pages from what the program prints at --help.
complete -c bsonserver -f
complete -c bsonserver -l connections -r -f -d 'End after this many connections; without it the server goes on'
complete -c bsonserver -l quiet -d 'Write only the first line and the last one'
complete -c bsonserver -l until-stdin-closes -d 'End when standard input does'
complete -c bsonserver -l port-file -r -F -d 'Write the port and a line feed to FILE once the server listens'
complete -c bsonserver -l script -r -F -d 'Answer by the rules of FILE, and where they say nothing, as without them'
complete -c bsonserver -s h -l help -d 'Print help'
complete -c bsonserver -s V -l version -d 'Print version'
