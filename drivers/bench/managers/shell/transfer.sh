#!/bin/sh
# A transaction manager in shell: presumed abort, a file of decisions, and recovery. Needs MariaDB's client.
#
#     transfer.sh VALUE     writes a row into each store of $PORTS, in one transaction
#     transfer.sh           recovers
sql() { # PORT STATEMENTS
    mariadb --no-defaults --skip-column-names --host=127.0.0.1 --port="$1" --user=root --execute="$2"
}

run() {
    gtrid=shell-$(date +%s%N) is_yes=1 is_told=1
    for port in $PORTS; do
        xid="'$gtrid','shell'"
        sql "$port" "XA START $xid; PUT 'row','$1'; XA END $xid; XA PREPARE $xid" || is_yes=0
    done
    if [ $is_yes = 1 ]; then
        echo "$gtrid" >> decided && sync decided || exit 1
    fi
    for port in $PORTS; do
        if [ $is_yes = 1 ]; then
            sql "$port" "XA COMMIT '$gtrid','shell'" || is_told=0
        else
            sql "$port" "XA ROLLBACK '$gtrid','shell'"
        fi
    done
    # The run is over.
    [ $is_yes = 1 ] && [ $is_told = 1 ]
}

recover() {
    for port in $PORTS; do
        sql "$port" 'XA RECOVER' | while read -r _ length _ data; do
            gtrid=$(printf "%.${length}s" "$data")
            case $gtrid in
                shell-*) ;;
                *) continue ;; # somebody else's
            esac
            verb=ROLLBACK
            ! grep -qsx "$gtrid" decided || verb=COMMIT
            sql "$port" "XA $verb '$gtrid','shell'" || exit 1
        done || exit 1
    done
}

if [ $# = 1 ]; then run "$1"; else recover; fi
