# A limit on the length of files, at which the system takes a part of a write and then nothing more.
limited() {
    trap '' XFSZ
    ulimit -f "$1"
    "$program" db script
}
mkdir db
"$program" db script </dev/null
echo "the log takes a part of a record"
{
    echo "1 INSERT INTO V SET n = 1"
    echo "1 INSERT INTO V SET n = 2"
    echo "1 SELECT FROM #1:0"
} >lines
(limited 4 <lines)
echo "ends with $?"
run db script <<<"1 SELECT FROM #1:0"
# Replies of 7 bytes, the 147th of which goes past 1,024.
echo "the output takes a part of the last reply"
for ((k = 1; k <= 147; k++)); do
    if ((k % 2)); then echo "1 BEGIN"; else echo "1 ROLLBACK"; fi
done >lines
(limited 1 <lines >replies)
echo "ends with $?, $(stat -c %s replies) bytes"
