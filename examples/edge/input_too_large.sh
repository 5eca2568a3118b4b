# An input of one byte more than 2^30: the line that has this byte isn't run.
mkdir db
comment="-- $(head -c 3996 /dev/zero | tr '\0' x)"
first="1 INSERT INTO V SET n = 1"
last="1 SELECT FROM #1:0"
{
    echo "$first"
    yes -- "$comment" | head -c $(((1 << 30) + 1 - ${#first} - 1 - ${#last} - 2))
    printf '\n%s\n' "$last"
} | "$program" db script
echo "ends with ${PIPESTATUS[1]}"
