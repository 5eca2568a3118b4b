# A program that is started without a standard stream opens no file of the database in its place: what should have been
# read or written fails, and the database stays whole.
try() {
    mkdir db
    echo "1 INSERT INTO V SET name = 'Ann'" >lines
    eval "\"\$program\" db script $1"
    echo "$1 ends with $?"
    for file in master log_b pages; do echo "$file: $(od -An -tx1 db/$file)"; done
    run db script <<<"1 SELECT FROM #1:0"
    rm -r db
}
try "<lines"
try "<lines >&-"
try "<lines 2>&-"
try "<lines >&- 2>&-"
try "<&-"
try "<&- 2>&-"
try "<&- >&-"
try "<&- >&- 2>&-"
# What stands in the place of the two that are closed.
mkdir db
mkfifo input
"$program" db script <input >&- 2>&- &
exec 9>input
until [ -s db/master ]; do sleep 0.01; done
readlink /proc/$!/fd/1 /proc/$!/fd/2
exec 9>&-
wait $!
echo "ends with $?"
