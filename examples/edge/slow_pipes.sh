# Pipes that give and take a byte at a time, and an input whose last line doesn't end.
mkdir db
printf '%s' "-- a comment

1 INSERT INTO V SET name = 'Åsa'
64 BEGIN
64 INSERT INTO V SET friend = #1:0
1 SELECT FROM #1:0
64 COMMIT
! history" >lines
dd bs=1 status=none <lines | "$program" db script | dd bs=1 status=none
echo "ends with ${PIPESTATUS[1]}"
