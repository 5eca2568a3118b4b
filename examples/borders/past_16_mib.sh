# Commits past 16 MiB of log: the commit that finds so much in the log sends all pages home and begins the other file.
# One commit makes 1,000 records, and each further one changes all of them, in about 4.1 MB of log: the sixth goes on in
# log_b.
mkdir db
# A transaction with a statement for each record, whose position stands for `@`.
each() {
    echo "1 BEGIN"
    for ((p = 0; p < 1000; p++)); do echo "1 ${1//@/$p}"; done
    echo "1 COMMIT"
}
{
    each "INSERT INTO V SET n = 0"
    for n in 1 2 3 4 5 6; do each "UPDATE #1:@ SET n = $n"; done
    echo "1 SELECT FROM #1:999"
} | run db script | grep -E '^1 OK 1000|^1 ERR|"#1:|^ends'
od -An -tx1 db/master
# Of each log the whole steps of 262,144 bytes: five records in log_a, two in log_b; and 1,001 pages at home.
stat -c '%n %s' db/log_a db/log_b db/pages
# The next run finds the last of it, and goes on.
run db script <<'lines'
1 SELECT FROM #1:0
1 UPDATE #1:0 SET n = 7
! checkpoint
! reopen
1 SELECT FROM #1:0
1 SELECT FROM #1:999
1 INSERT INTO V SET n = 8
lines
od -An -tx1 db/master
