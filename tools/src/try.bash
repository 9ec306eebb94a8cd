# For tests to source: cases that run a command and look at its status, its output and its messages. They are run by a shell of their own, which gets
# what is exported. $away is a folder for them.

away=$(mktemp -d)
export away
trap 'chmod -R u+w "$away"; rm -rf "$away"' EXIT
cases=0

fail() {
    echo "$0: $*" >&2
    exit 1
}

# try NAME STATUS OUTPUT MESSAGE COMMAND: the command's status, all of its standard output, and what its standard error has in it ('': nothing
# at all)
try() {
    local name=$1 status=$2 output=$3 message=$4 command=$5 found=0
    timeout 60 bash -c "$command" > "$away/out" 2> "$away/err" || found=$?
    ((found == status)) || fail "$name: status $found, not $status: $(< "$away/err")"
    diff <(printf '%s' "${output:+$output$'\n'}") "$away/out" || fail "$name: its output"
    if [[ -z $message ]]; then
        [[ ! -s $away/err ]] || fail "$name: it says '$(< "$away/err")'"
    else
        grep -qF -- "$message" "$away/err" || fail "$name: it says '$(< "$away/err")', not '$message'"
    fi
    cases=$((cases + 1))
}
