# A read or a write of a file that a signal interrupts is tried again: here each second one is answered EINTR. Nothing is
# lost by it, and no call counts as failed.
if ! command -v strace >/dev/null || ! strace -o /dev/null true 2>/dev/null; then
    echo "there is no strace(1), or it may not be used" >&2
    exit 77
fi
mkdir db
interrupted() {
    strace -o trace -P "$PWD/db/master" -P "$PWD/db/log_a" -P "$PWD/db/log_b" -P "$PWD/db/pages" \
        -e trace=pread64,pwrite64 -e inject=pread64,pwrite64:error=EINTR:when=1+2 "$program" "$PWD/db" script
    echo "ends with $?"
    for call in pread64 pwrite64; do
        if grep -q "^$call(.*EINTR.*INJECTED" trace; then
            echo "some $call was interrupted"
        fi
    done
}
interrupted <<<"1 INSERT INTO V SET name = 'Ann'
1 INSERT INTO V SET friend = #1:0"
interrupted <<<"1 SELECT FROM #1:0
1 SELECT FROM #1:1
1 UPDATE #1:0 SET name = 'Bea'"
interrupted <<<"1 SELECT FROM #1:0"
