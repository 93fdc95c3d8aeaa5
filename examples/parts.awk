# For a record in parts. It writes a record into files, one for each stretch of time from its start, and each entry at
# once. An entry begins at a line that begins with a digit: its number and its time in ms. `cat` joins the files again.
#
#     awk -v name=NAME -v every=MILLISECONDS -f examples/parts.awk < RECORD
#
# The files are NAME.00000 and so on. With mawk `-W interactive` is needed if the record comes through a pipe.
/^[0-9]/ {
    part = sprintf("%s.%05d", name, int($2 / every))
    if (part != file && file != "") close(file)
    file = part
}
{ print > file }
/^= / { fflush(file) }
