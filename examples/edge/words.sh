# Words that ask for nothing: the usage, status 1, and no file is made.
mkdir db ./-db
wrong() {
    printf '(%s) ' "$@"
    run "$@" <<<"1 INSERT INTO V SET n = 1"
}
echo -n "no word: "
run
wrong db
wrong ""
wrong "" script
wrong -db script
wrong script
wrong db scripts
wrong db Script
wrong db script script
wrong db script ""
wrong db load 1
wrong db check
wrong db sessions
wrong db --help
wrong db -h
wrong db --version
wrong --help script
wrong --version --version
wrong -- db script
echo -n "a word that isn't UTF-8: "
run db $'\xff'
ls db ./-db
