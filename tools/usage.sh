# What each shell script of tools/ sources first: with -h or --help among its words it prints the comment at its head, and ends.
for word in "$@"; do
    case $word in
        -h | --help)
            sed -n '2,${/^#/!q;s/^# \{0,1\}//p}' "$0"
            exit 0
            ;;
    esac
done
