# fish completion of osbytes(1)
complete -c osbytes -f
complete -c osbytes -n '__fish_use_subcommand' -a units -d 'the code units, one on each line'
complete -c osbytes -n '__fish_use_subcommand' -a raw -d 'the bytes of the string that has these units'
complete -c osbytes -n '__fish_use_subcommand' -a find -d 'the first index of a text'
complete -c osbytes -n '__fish_use_subcommand' -a split -d 'the pieces between a text'
complete -c osbytes -n '__fish_use_subcommand' -a chunks -d 'the parts that are text and those that aren\'t'
complete -c osbytes -n '__fish_use_subcommand' -a quote -d 'the escape of the string'
complete -c osbytes -n '__fish_use_subcommand' -a unquote -d 'the bytes of the string that has this escape'
complete -c osbytes -n '__fish_seen_subcommand_from units raw find split chunks quote unquote; and not __fish_seen_subcommand_from unix windows wasm' -a 'unix windows wasm'
