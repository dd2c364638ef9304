# Completion of pprof's words in fish.
# Made by scripts/make_completions.py from the help and the tables of names in crates/pp_options.
complete -c pprof -n 'test (count (commandline -opc)) -eq 1' -l help -d 'print all options'
complete -c pprof -n 'test (count (commandline -opc)) -eq 1' -l version -d 'print the version'
complete -c pprof -o top -l top -d 'the functions with the largest own values'
complete -c pprof -o text -l text -d 'the functions with the largest own values'
complete -c pprof -o tree -l tree -d 'each function between its callers and callees'
complete -c pprof -o peek -l peek -d 'the same for the functions that the pattern finds' -x
complete -c pprof -o list -l list -d 'values by source line, for the functions that the pattern finds' -x
complete -c pprof -o traces -l traces -d 'each sample with its stack'
complete -c pprof -o tags -l tags -d 'values by label'
complete -c pprof -o raw -l raw -d 'the profile as text'
complete -c pprof -o comments -l comments -d 'the comments of the profile'
complete -c pprof -o proto -l proto -d 'the profile as it was filtered, as protobuf'
complete -c pprof -o folded -l folded -d 'the value of each path, for flame graph programs'
complete -c pprof -o table -l table -d 'the values of each function, divided by tabs'
complete -c pprof -o compare -l compare -d 'each function before and after the change, of a profile with -diff_base'
complete -c pprof -o changes -l changes -d 'the same figures, exact, divided by tabs'
complete -c pprof -o account -l account -d 'what each filter drops, and what the limits leave out'
complete -c pprof -o gen -l gen -d 'a source that is made, of 1 to 1000000 samples' -x
complete -c pprof -o base -l base -d 'a profile that is subtracted' -r -F
complete -c pprof -o diff_base -l diff_base -d 'the same, and percentages are of the base' -r -F
complete -c pprof -o normalize -l normalize -d 'scale the sources to the sums of the bases first'
complete -c pprof -o sort -l sort -d 'the order: flat or cum; also -flat and -cum' -x -a 'flat cum'
complete -c pprof -o granularity -l granularity -d 'what a row stands for: functions, filefunctions, files, lines or addresses; also -functions and so on' -x -a 'functions filefunctions files lines addresses'
complete -c pprof -o noinlines -l noinlines -d 'count inlined functions to their callers'
complete -c pprof -o showcolumns -l showcolumns -d 'tell columns of a line apart, with lines and addresses'
complete -c pprof -o path_tree -l path_tree -d 'show the tree by paths from the root'
complete -c pprof -o nodecount -l nodecount -d 'the most rows, 0 for all; -1 is all, and 80 for tree' -x
complete -c pprof -o nodefraction -l nodefraction -d 'leave out rows with less than this part of the total' -x
complete -c pprof -o edgefraction -l edgefraction -d 'leave out edges with less than this part of the total' -x
complete -c pprof -o focus -l focus -d 'keep samples with a frame that is found' -x
complete -c pprof -o ignore -l ignore -d 'drop samples with a frame that is found' -x
complete -c pprof -o show -l show -d 'keep the frames that are found' -x
complete -c pprof -o hide -l hide -d 'drop the frames that are found' -x
complete -c pprof -o show_from -l show_from -d 'drop the frames above the first that is found, from the root' -x
complete -c pprof -o prune_from -l prune_from -d 'drop the frames below the first that is found, from the leaf' -x
complete -c pprof -o tagfocus -l tagfocus -d 'keep samples with labels that the filter selects' -x
complete -c pprof -o tagignore -l tagignore -d 'drop samples with labels that the filter selects' -x
complete -c pprof -o tagshow -l tagshow -d 'keep the labels whose key is found' -x
complete -c pprof -o taghide -l taghide -d 'drop the labels whose key is found' -x
complete -c pprof -o tagroot -l tagroot -d 'add frames at the root from these labels' -x
complete -c pprof -o tagleaf -l tagleaf -d 'add frames at the leaf from these labels' -x
complete -c pprof -o sample_index -l sample_index -d 'the sample type, by its name or its number from 0; also -inuse_space, -inuse_objects, -alloc_space, -alloc_objects, -contentions, and -total_delay for delay' -x
complete -c pprof -o unit -l unit -d 'the unit of all values; without one it is picked from the total, and with each for every value' -x
complete -c pprof -o relative_percentages -l relative_percentages -d 'percentages of the samples that are kept'
complete -c pprof -o divide_by -l divide_by -d 'divide all values, by 1 to 9223372036854775807' -x
complete -c pprof -o source_path -l source_path -d 'where list looks for source files' -r -F
complete -c pprof -o trim_path -l trim_path -d 'what list takes off the front of their names' -r -F
complete -c pprof -o workers -l workers -d 'the number of threads, 1 to 64' -x
complete -c pprof -o flat -l flat -d 'the order: flat'
complete -c pprof -o cum -l cum -d 'the order: cum'
complete -c pprof -o functions -l functions -d 'a row stands for: functions'
complete -c pprof -o filefunctions -l filefunctions -d 'a row stands for: filefunctions'
complete -c pprof -o files -l files -d 'a row stands for: files'
complete -c pprof -o lines -l lines -d 'a row stands for: lines'
complete -c pprof -o addresses -l addresses -d 'a row stands for: addresses'
complete -c pprof -o inuse_space -l inuse_space -d 'the sample type: inuse_space'
complete -c pprof -o inuse_objects -l inuse_objects -d 'the sample type: inuse_objects'
complete -c pprof -o alloc_space -l alloc_space -d 'the sample type: alloc_space'
complete -c pprof -o alloc_objects -l alloc_objects -d 'the sample type: alloc_objects'
complete -c pprof -o contentions -l contentions -d 'the sample type: contentions'
complete -c pprof -o total_delay -l total_delay -d 'the sample type: total_delay'
