# A link to the null device can be read and written and can't be synced: no file's sync is left out, or goes to another
# file.
for name in master log_a log_b pages; do
    mkdir db
    ln -s /dev/null db/$name
    echo "$name"
    run db script <<<"1 INSERT INTO V SET n = 1"
    ls db
    rm -r db
done
