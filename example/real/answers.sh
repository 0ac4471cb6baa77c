# What check.sh and expect.sh share: prints the questions of a file of expected answers, its lines that begin with "$ ", and after each what
# it prints on both streams, with the status where that isn't 0. Who calls it says what rpm and rpmdb are.
answers() {
    while IFS= read -r line; do
        case $line in
            '$ '*)
                printf '%s\n' "$line"
                eval "${line#??}" 2>&1 < /dev/null || echo "(status $?)"
                ;;
        esac
    done < "$1"
}
