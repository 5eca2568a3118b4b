# A folder with a file of somebody else under one of the four names stays as it is.
for name in master log_a log_b pages; do
    mkdir db
    echo "a text of somebody else" >db/$name
    echo "$name"
    run db script <<<"1 INSERT INTO V SET n = 1"
    ls db
    cat db/*
    rm -r db
done
