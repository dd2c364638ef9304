"""The rules of pprof as a plain, slow program.

It is written from the pages of docs/ and shares no code with the program. It says what a session owes: both outputs,
the status and the files. `python3 -m model WORDS ..` runs it over real files, as the program runs.
"""
