# Made by scripts/tools/pages from what the program prints at --help.
complete -c bsonwire -f
complete -c bsonwire -n __fish_use_subcommand -a dump -d 'Writes the text of each document'
complete -c bsonwire -n __fish_use_subcommand -a check -d 'Says of each document whether it is in canonical form'
complete -c bsonwire -n __fish_use_subcommand -a canon -d 'Writes the canonical form of each document, with --hex in hexadecimal digits'
complete -c bsonwire -n __fish_use_subcommand -a msg -d 'Writes the text of each message; FILE may also be a file of records'
complete -c bsonwire -n __fish_use_subcommand -a json -d 'Writes each document as MongoDB Extended JSON, canonical and one a line; FILE may also be a file of records'
complete -c bsonwire -n __fish_use_subcommand -a bson -d 'Writes the documents of Extended JSON, which is one object after another or an array'
complete -c bsonwire -n __fish_use_subcommand -a play -d 'Runs a script of calls, cuts and restarts, and writes what happened'
complete -c bsonwire -n __fish_use_subcommand -a loop -d 'Makes calls to itself over TCP, at 127.0.0.1'
complete -c bsonwire -n __fish_use_subcommand -a help -d 'Print the help of a command'
complete -c bsonwire -n __fish_use_subcommand -s h -l help -d 'Print help'
complete -c bsonwire -n __fish_use_subcommand -s V -l version -d 'Print version'
complete -c bsonwire -n '__fish_seen_subcommand_from dump' -l quiet -d 'Draw no line of progress'
complete -c bsonwire -n '__fish_seen_subcommand_from dump' -l hex -d 'Read hexadecimal text'
complete -c bsonwire -n '__fish_seen_subcommand_from dump' -l offsets -d 'Write the offset of what a line shows before it, and a tab'
complete -c bsonwire -n '__fish_seen_subcommand_from dump' -s h -l help -d 'Print help'
complete -c bsonwire -n '__fish_seen_subcommand_from dump' -F
complete -c bsonwire -n '__fish_seen_subcommand_from check' -l quiet -d 'Draw no line of progress'
complete -c bsonwire -n '__fish_seen_subcommand_from check' -l hex -d 'Read hexadecimal text'
complete -c bsonwire -n '__fish_seen_subcommand_from check' -l salvage -d 'Go on behind faults, and write the gaps; a document has at most 16793600 bytes then'
complete -c bsonwire -n '__fish_seen_subcommand_from check' -s h -l help -d 'Print help'
complete -c bsonwire -n '__fish_seen_subcommand_from check' -F
complete -c bsonwire -n '__fish_seen_subcommand_from canon' -l quiet -d 'Draw no line of progress'
complete -c bsonwire -n '__fish_seen_subcommand_from canon' -l hex -d 'Read hexadecimal text'
complete -c bsonwire -n '__fish_seen_subcommand_from canon' -l salvage -d 'Write those behind faults too, of at most 16793600 bytes, and no fault'
complete -c bsonwire -n '__fish_seen_subcommand_from canon' -s h -l help -d 'Print help'
complete -c bsonwire -n '__fish_seen_subcommand_from canon' -F
complete -c bsonwire -n '__fish_seen_subcommand_from msg' -l quiet -d 'Draw no line of progress'
complete -c bsonwire -n '__fish_seen_subcommand_from msg' -l hex -d 'Read hexadecimal text'
complete -c bsonwire -n '__fish_seen_subcommand_from msg' -l json -d 'Write each message as a JSON object, one a line'
complete -c bsonwire -n '__fish_seen_subcommand_from msg' -l relaxed -d 'With --json, write relaxed Extended JSON'
complete -c bsonwire -n '__fish_seen_subcommand_from msg' -l any -d 'Write messages of any opCode, check their checksums, and go on behind faults inside one'
complete -c bsonwire -n '__fish_seen_subcommand_from msg' -s h -l help -d 'Print help'
complete -c bsonwire -n '__fish_seen_subcommand_from msg' -F
complete -c bsonwire -n '__fish_seen_subcommand_from json' -l quiet -d 'Draw no line of progress'
complete -c bsonwire -n '__fish_seen_subcommand_from json' -l hex -d 'Read hexadecimal text'
complete -c bsonwire -n '__fish_seen_subcommand_from json' -l relaxed -d 'Write relaxed Extended JSON, which doesn\'t tell the kind of each value'
complete -c bsonwire -n '__fish_seen_subcommand_from json' -l array -d 'Write one array of all documents, or of all records'
complete -c bsonwire -n '__fish_seen_subcommand_from json' -s h -l help -d 'Print help'
complete -c bsonwire -n '__fish_seen_subcommand_from json' -F
complete -c bsonwire -n '__fish_seen_subcommand_from bson' -l quiet -d 'Draw no line of progress'
complete -c bsonwire -n '__fish_seen_subcommand_from bson' -s h -l help -d 'Print help'
complete -c bsonwire -n '__fish_seen_subcommand_from bson' -F
complete -c bsonwire -n '__fish_seen_subcommand_from play' -l quiet -d 'Draw no line of progress'
complete -c bsonwire -n '__fish_seen_subcommand_from play' -s h -l help -d 'Print help'
complete -c bsonwire -n '__fish_seen_subcommand_from play' -F
complete -c bsonwire -n '__fish_seen_subcommand_from loop' -s h -l help -d 'Print help'
complete -c bsonwire -n '__fish_seen_subcommand_from help' -a 'dump check canon msg json bson play loop'
