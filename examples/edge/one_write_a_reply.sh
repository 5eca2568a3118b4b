# A reply comes in one piece: the first read of a pipe has all its lines.
mkdir db
"$program" db script <<<"1 INSERT INTO V SET n = 1" | dd bs=65536 count=1 status=none
mkfifo lines replies
"$program" db script <lines >replies &
exec 8>lines 9<replies
for text in "1 BEGIN" "1 INSERT INTO V SET n = 2" "1 INSERT INTO V SET n = 3" "1 COMMIT" "! history"; do
    echo "$text" >&8
    echo "to $text:"
    dd bs=65536 count=1 status=none <&9
done
exec 8>&-
wait
