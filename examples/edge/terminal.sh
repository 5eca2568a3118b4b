# Where standard error is a terminal, one line on it says why a run ended with another status than 0 and 1.
if ! script -qec true /dev/null </dev/null >/dev/null 2>&1; then
    echo "there is no script(1), or no terminal to be had" >&2
    exit 77
fi
at_terminal() {
    script -qec "'$program' $1" /dev/null </dev/null | tr -d '\r'
    echo "$1 ends with ${PIPESTATUS[0]}"
}
mkdir db other
at_terminal "db script </dev/null"
at_terminal "db scripts </dev/null"
printf '1 BEGIN\n\n-- a comment\n1 COMMIT\nnot a line\n1 BEGIN\n' >lines
at_terminal "db script <lines"
{
    echo "1 BEGIN"
    head -c 5000 /dev/zero | tr '\0' x
} >lines
at_terminal "db script <lines"
echo "1 BEGIN" >lines
at_terminal "db script <db"
at_terminal "db script <lines >/dev/full"
at_terminal "none script <lines"
mkdir -p linked
ln -s /dev/null linked/log_b
at_terminal "linked script <lines"
echo text >other/log_b
at_terminal "other script <lines"
exec 9<db/master
flock 9
at_terminal "db script <lines"
