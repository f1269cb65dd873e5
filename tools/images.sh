# For the commands that take a ROM image and an address: sourced behind prove.sh.

# Ends the command where file $1 cannot be read.
check_file() {
    [ -e "$1" ] || fail "$1: there is no such file"
    [ ! -d "$1" ] || fail "$1: this is a folder, not a file"
    [ -r "$1" ] || fail "$1: the file cannot be read"
}

# Ends the command where $1 is no address.
check_address() {
    [[ $1 =~ ^([0-9]+|0[xX][0-9a-fA-F]+)$ ]] || wrong_usage "'$1' is no address: a number of bytes is wanted, decimal or 0x.."
}
