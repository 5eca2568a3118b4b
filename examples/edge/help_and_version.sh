# What is asked for alone goes to standard output.
run --help
run --version
for word in --help --version; do
    "$program" $word >/dev/full
    echo "$word to a device that is full ends with $?"
done
ls
