# For a record without sockets. It makes one of a script and of what `l4proxy replay` answered to it:
#     awk -f examples/record.awk SCRIPT ANSWERS > RECORD
# The lines of a reload's text follow its event. Events that were refused, and questions, are in no record.
NR == FNR && /^\|/ { line[lines] = line[lines] "\n" $0; next }
NR == FNR { if ($0 != "" && $0 !~ /^#/) line[++lines] = $0; next }
line[FNR] !~ /^ask / && !/^fault / { print ++number, line[FNR]; print "= " $0 }
