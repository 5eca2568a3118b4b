# What ends a run, by its status; nothing is said of it where standard error is no terminal.
insert="1 INSERT INTO V SET n = 1"
mkdir db unsound taken
echo "0: the input ended"
run db script <<<"$insert"
echo "3: standard input is a folder"
run db script <db
echo "4: standard output is a device that is full"
"$program" db script <<<"$insert" >/dev/full
echo "ends with $?"
echo "5: no such folder"
run none script <<<"$insert"
echo "5: a file as the folder"
echo text >file
run file script <<<"$insert"
echo "5: a pipe as the folder"
mkfifo pipe
run pipe script <<<"$insert"
echo "5: a folder under a file's name"
mkdir taken/log_b
run taken script <<<"$insert"
ls taken
echo "6: not a database"
echo text >unsound/master
run unsound script <<<"$insert"
echo "8: a bad line"
printf '1 BEGIN\nCOMMIT\n1 COMMIT\n' | run db script
