# For tests to source: ELF files and others made of hexadecimal digits.

# bytes HEXADECIMAL
bytes() {
    printf "$(sed 's/../\\x&/g' <<< "$1")"
}

# elf FIELD=HEXADECIMAL..: a program of two words at 100, with some fields of its header otherwise. more is a second segment's header.
elf() {
    local class=01 encoding=02 type=0002 machine=005c entry=00000100 headers=00000034 header_bytes=0020 count=0001 more='' body=9c60000515000001 field
    local load=00000001 offset=00000054 virtual=00000100 physical=00000100 file_bytes=00000008 memory_bytes=00000010
    for field; do local "$field"; done
    bytes "7f454c46$class${encoding}01000000000000000000$type${machine}00000001$entry${headers}00000000000000000034$header_bytes${count}002800000000"
    bytes "$load$offset$virtual$physical$file_bytes${memory_bytes}0000000500000004$more$body"
}
