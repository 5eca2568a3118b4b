# The calls of the system by which a database is made and a commit comes to the disk, in their order: each file is
# opened, master is locked before the next, new names are synced with their folder, and each reply comes after the syncs
# of its commit.
if ! command -v strace >/dev/null || ! strace -o /dev/null true 2>/dev/null; then
    echo "there is no strace(1), or it may not be used" >&2
    exit 77
fi
mkdir db
calls() {
    strace -y -e trace=openat,flock,fsync,fdatasync,pwrite64,ftruncate,write -o trace "$program" db script >/dev/null
    echo "ends with $?"
    # The name of each call and of its file; writes to one file of the folder that follow each other are told as one.
    sed -E -n '/\/db(\/[a-z_]*)?>/{
        s/^openat\(.* = [0-9]+<.*\/(db[a-z_/]*)>$/open \1/
        s/^(flock|fsync|fdatasync)\([0-9]+<.*\/(db[a-z_/]*)>(, ([A-Z_|]*))?\) = 0$/\1 \2 \4/
        s/^pwrite64\([0-9]+<.*\/(db[a-z_/]*)>.*$/write \1/
        s/^ftruncate\([0-9]+<.*\/(db[a-z_/]*)>.*$/cut \1/
        s/ +$//
        p
    }
    s/^write\(1<.*/write to standard output/p' trace | awk '$0 != last || !/^write db/ { print } { last = $0 }'
}
echo "a new database"
calls </dev/null
echo "two commits"
calls <<<"1 INSERT INTO V SET n = 1
1 INSERT INTO V SET n = 2"
echo "the steps"
calls <<<"! flush 1
! settle
! checkpoint"
