# Shows each refused line of a script with its reason: awk -f refused.awk card.script card.out
# In place of card.out, `-` reads the transcript from standard input.
NR == FNR { source[FNR] = $0; next }
/^[0-9]+: bad / { print ARGV[1] ":" $1 " " $2 " " $3 ": " source[$1 + 0] }
