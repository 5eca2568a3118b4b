# The names and bytes of the files on the disk.
bytes() { echo "$1: $(od -An -tx1 -N "$2" db/"$1")"; }
mkdir db
run db script </dev/null
ls db
for name in master log_a log_b pages; do bytes $name 100; done
run db script <<<"1 INSERT INTO V SET name = 'Ann'"
ls db
for name in master log_b pages; do bytes $name 100; done
# Gate 0 is open; the body's length, 4 + 2 * 4,100; the count of its images; and after the body the next gate, closed.
bytes log_a 9
od -An -tx1 -j 8209 -N 1 db/log_a
grep -c -a Ann db/log_a
# Both pages at home, each at its place, and the other log in use, with no record.
run db script <<<"! checkpoint"
for name in master log_b pages; do bytes $name 16; done
od -An -tx1 -j 4096 -N 32 db/pages
stat -c %s db/pages
