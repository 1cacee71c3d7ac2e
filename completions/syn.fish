# Completion of syn for fish. Made by ./pages from the program's help.
set -l commands format put mkdir rm chmod show check migrate log export import reconcile serve sync run plan simulate help
set -l first "not __fish_seen_subcommand_from $commands"
complete -c syn -f
complete -c syn -n $first -a format -d 'Makes FILE an image of KIND, `replica` or `archive`, for the pair numbered PAIR'
complete -c syn -n $first -a put -d 'Puts standard input at PATH, as an edit of the user numbered USER'
complete -c syn -n $first -a mkdir -d 'Makes a directory at PATH, as an edit of the user numbered USER'
complete -c syn -n $first -a rm -d 'Removes what is at PATH, with all below it, as an edit of the user numbered USER'
complete -c syn -n $first -a chmod -d 'Gives the file at PATH the mode MODE, as an edit of the user numbered USER'
complete -c syn -n $first -a show -d 'Prints an image, or a file or a directory of it'
complete -c syn -n $first -a check -d 'Opens an image, and prints its numbers'
complete -c syn -n $first -a migrate -d 'Makes an image of version 1 one of version 2, which this program reads'
complete -c syn -n $first -a log -d 'Prints the last events of a replica, the newest first'
complete -c syn -n $first -a export -d 'Writes a replica, or a directory of it, into the folder DIR'
complete -c syn -n $first -a import -d 'Makes a replica, or a directory of it, what the folder DIR is, by edits of USER'
complete -c syn -n $first -a reconcile -d 'Makes the folder DIR and the replica in FILE the same, by what both last agreed on'
complete -c syn -n $first -a serve -d 'Serves the replica in FILE at ADDR, to users and to `syn sync`'
complete -c syn -n $first -a sync -d 'Runs one session of two replicas that are served, and prints its report'
complete -c syn -n $first -a run -d 'Runs one session of two replicas in files, and prints its report'
complete -c syn -n $first -a plan -d 'Prints what a session would do, and does nothing'
complete -c syn -n $first -a simulate -d 'Runs a script of steps on two replicas, an archive and their sessions, in memory'
complete -c syn -n $first -a help -d 'Explains the program, or a command'
complete -c syn -n '__fish_seen_subcommand_from help' -a "$commands"
complete -c syn -s v -l verbose -d 'Explains a refusal in plain words, and tells each item of a session'
complete -c syn -s h -l help -d 'Print help'
complete -c syn -n $first -s V -l version -d 'Print version'
complete -c syn -n '__fish_seen_subcommand_from format' -l after -r -d 'Goes on after the last session of LEFT and RIGHT, whose archive is lost'
complete -c syn -n '__fish_seen_subcommand_from format' -l served -d 'Asks the servers at LEFT and at RIGHT, each HOST:PORT'
complete -c syn -n '__fish_seen_subcommand_from format' -l force -d 'Asks nothing, and refuses nothing but an image that is in use'
complete -c syn -n '__fish_seen_subcommand_from format' -a 'replica archive'
complete -c syn -n '__fish_seen_subcommand_from format' -F
complete -c syn -n '__fish_seen_subcommand_from put' -l served -d 'Asks the server at HOST:PORT, which stands in the place of FILE'
complete -c syn -n '__fish_seen_subcommand_from put' -F
complete -c syn -n '__fish_seen_subcommand_from mkdir' -l served -d 'Asks the server at HOST:PORT, which stands in the place of FILE'
complete -c syn -n '__fish_seen_subcommand_from mkdir' -F
complete -c syn -n '__fish_seen_subcommand_from rm' -l served -d 'Asks the server at HOST:PORT, which stands in the place of FILE'
complete -c syn -n '__fish_seen_subcommand_from rm' -F
complete -c syn -n '__fish_seen_subcommand_from chmod' -l served -d 'Asks the server at HOST:PORT, which stands in the place of FILE'
complete -c syn -n '__fish_seen_subcommand_from chmod' -F
complete -c syn -n '__fish_seen_subcommand_from show' -l served -d 'Asks the server at HOST:PORT, which stands in the place of FILE'
complete -c syn -n '__fish_seen_subcommand_from show' -F
complete -c syn -n '__fish_seen_subcommand_from check' -F
complete -c syn -n '__fish_seen_subcommand_from migrate' -F
complete -c syn -n '__fish_seen_subcommand_from log' -F
complete -c syn -n '__fish_seen_subcommand_from export' -l update -d 'Writes what differs into a DIR that is there, and removes nothing'
complete -c syn -n '__fish_seen_subcommand_from export' -l delete -d 'As \'--update\', and removes from DIR what is not exported'
complete -c syn -n '__fish_seen_subcommand_from export' -l served -d 'Asks the server at HOST:PORT, which stands in the place of FILE'
complete -c syn -n '__fish_seen_subcommand_from export' -F
complete -c syn -n '__fish_seen_subcommand_from import' -l skip -d 'Leaves out what can stand in no replica, and tells it'
complete -c syn -n '__fish_seen_subcommand_from import' -l served -d 'Asks the server at HOST:PORT, which stands in the place of FILE'
complete -c syn -n '__fish_seen_subcommand_from import' -F
complete -c syn -n '__fish_seen_subcommand_from reconcile' -l prefer -x -a 'folder replica' -d 'Where both changed, SIDE overwrites the other: \'folder\' or \'replica\''
complete -c syn -n '__fish_seen_subcommand_from reconcile' -l archive -r -d 'The file of what both last agreed on, made where it is missing: else FILE.folder'
complete -c syn -n '__fish_seen_subcommand_from reconcile' -l dry-run -d 'Prints what would be done, and does nothing'
complete -c syn -n '__fish_seen_subcommand_from reconcile' -l emptied -d 'Carries it, too, where one side has become empty'
complete -c syn -n '__fish_seen_subcommand_from reconcile' -l anew -d 'Begins without marks, with the replica as it is: it removes nothing'
complete -c syn -n '__fish_seen_subcommand_from reconcile' -F
complete -c syn -n '__fish_seen_subcommand_from serve' -l connections -x -d 'Ends when N connections were served, below 2^64'
complete -c syn -n '__fish_seen_subcommand_from serve' -l folder -r -d 'Keeps the folder DIR the same as the replica, by edits of the user of \'--user\''
complete -c syn -n '__fish_seen_subcommand_from serve' -l user -x -d 'The number of the user whose edits the changes of DIR are, below 2^32'
complete -c syn -n '__fish_seen_subcommand_from serve' -l every -x -d 'Looks every SECONDS seconds whether DIR has changed: each second by default'
complete -c syn -n '__fish_seen_subcommand_from serve' -F
complete -c syn -n '__fish_seen_subcommand_from sync' -l prefer -x -a 'left right' -d 'Where both sides changed, SIDE overwrites the other: \'left\' or \'right\''
complete -c syn -n '__fish_seen_subcommand_from sync' -l every -x -d 'Goes on: looks every SECONDS seconds, and runs a session where a side has changed'
complete -c syn -n '__fish_seen_subcommand_from sync' -F
complete -c syn -n '__fish_seen_subcommand_from run' -l prefer -x -a 'left right' -d 'Where both sides changed, SIDE overwrites the other: \'left\' or \'right\''
complete -c syn -n '__fish_seen_subcommand_from run' -F
complete -c syn -n '__fish_seen_subcommand_from plan' -l prefer -x -a 'left right' -d 'Where both sides changed, SIDE overwrites the other: \'left\' or \'right\''
complete -c syn -n '__fish_seen_subcommand_from plan' -l served -d 'Asks the servers at LEFT and at RIGHT, each HOST:PORT'
complete -c syn -n '__fish_seen_subcommand_from plan' -F
complete -c syn -n '__fish_seen_subcommand_from simulate' -l trace -d 'Prints each message, stop and opening before the reports'
complete -c syn -n '__fish_seen_subcommand_from simulate' -F
