# A second program is refused as long as the first is at work, and nothing is lost.
mkdir db
mkfifo lines
: >replies
"$program" db script <lines >replies &
first=$!
exec 9>lines
echo "1 INSERT INTO V SET n = 1" >&9
until grep -q "OK" replies; do sleep 0.01; done
echo "while the first runs"
run db script <<<"1 INSERT INTO V SET n = 2"
flock -n db/master true || echo "master is locked"
echo "1 INSERT INTO V SET n = 3" >&9
exec 9>&-
wait $first
echo "the first ends with $?"
cat replies
run db script <<<"1 SELECT FROM #1:1"

# Programs that start at once on an empty folder: each is refused or does its work.
mkdir new
for k in {1..12}; do
    (
        "$program" new script <<<"1 INSERT INTO V SET n = $k" >"out.$k"
        echo $? >"status.$k"
    ) &
done
wait
done=$(cat status.* | grep -c '^0$')
refused=$(cat status.* | grep -c '^5$')
answered=$(cat out.* | grep -c '^1 OK 1$')
[ $done -ge 1 ] && [ $((done + refused)) = 12 ] && [ $done = $answered ] && echo "each was served or refused"
for ((k = 0; k < done; k++)); do echo "1 SELECT FROM #1:$k"; done | "$program" new script >found
[ "$(grep -c '^1 ROW ' found)" = $done ] && echo "each that was served is there"
