# Files of fault tests, for scripts that source this file: a master of 150 rows; a batch of 100 details of which 30 add a row, 40 change one
# and 30 are rejected; a collection file of 60 lines of which 10 are not posted; a contact file of 20 records of which 5 are faulty.

ebcdic() {
    dd conv=ebcdic status=none
}

# detail SSN NAME FIRST-NAME DOLLARS TYPE
detail() {
    printf 'OH   %09d%15s%-20s%-15s%08d%sN%171s' "$1" '' "$2" "$3" "$4" "$5" ''
}

make_master() {
    local i
    for ((i = 0; i < 150; i++)); do
        printf 'OH%09dN000%15s%-20s%-15s%08d%5s%012d%104s\0 00  ' $((900000000 + i)) '' SMITH JOHN 25 '' 0 ''
    done
}

make_batch() {
    local i
    for ((i = 0; i < 40; i++)); do detail $((900000000 + i)) SMITH '' 100 M; done
    for ((i = 40; i < 70; i++)); do detail $((900000000 + i)) SMYTH '' 100 M; done
    for ((i = 150; i < 180; i++)); do detail $((900000000 + i)) SMITH JOHN 25 A; done
    printf 'OHCTL%09d%09d%011d%011d%200s' 0 100 0 7750 ''
}

# weekly_line SSN COLLECTION ADJUSTMENT
weekly_line() {
    printf 'OH   %09d%15s%-20s%-15s%011d%011d%011d%9sN%133s' "$1" '' SMITH JOHN 2500 "$2" "$3" '' ''
}

make_weekly() {
    local i
    for ((i = 0; i < 50; i++)); do weekly_line $((900000000 + i)) 150 0; done
    for ((i = 150; i < 160; i++)); do weekly_line $((900000000 + i)) 0 100; done
    printf 'OH   TOTAL    %20s%015d%015d%176s' '' 10 50 ''
}

# contact CODE TELEPHONE
contact() {
    printf 'OH%03d%-14s%22s%-35s%-35s%70s%-35s%4s' "$1" "$2" '' 'COUNTY CHILD SUPPORT AGENCY' '7 MAIN STREET' '' 'COLUMBUS OH 43215' ''
}

make_contacts() {
    local i
    for ((i = 0; i < 15; i++)); do contact "$i" '(614) 555-0100'; done
    for ((i = 15; i < 20; i++)); do contact "$i" 614-555-0100; done
}
