# Converts the output of candump without -L, with timestamps such as (1502979132.106111), to log lines: sed -Ef candump.sed
s/^ *(\([0-9.]+\)) +(\S+) +(\S+) +\[[0-8]\] */\1 \2 \3#/
:more
s/(#[0-9A-F]*) ([0-9A-F]{2})\b/\1\2/
t more
