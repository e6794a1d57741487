# Numbers 1 and 2: counts and lengths at their ends and outside, and each sort of cell at its limit and above. Sourced by make-lent.

crash='15 0 0 1 0 0'
unknown='19 9 9 9 9 9'

# 1. Each count at its ends, with events of the last parties and in the last row.
for counts in '8 1 1 1' '1 8 1 1' '1 1 8 1' '1 1 1 16' '1 1 1 1'; do
    setup $counts
    row $clients $attempts acked.$servers $((1 << (databases - 1)))
    events "13 $clients $attempts $servers $databases 0" "15 0 0 $servers 0 0" "16 0 0 0 $databases 0" "17 $clients 0 0 0 0"
done
# one outside its range, the length right for it: a table that fits in all but that
for counts in '0 1 1 1' '1 0 1 1' '1 1 0 1' '1 1 1 0' '9 1 1 1' '1 9 1 1' '1 1 9 1' '1 1 1 17'; do
    setup $counts
    events "$crash" "$unknown"
done
# the header alone is wrong, far outside or so that another length would be right
for counts in '0 0 0 0' '65535 65535 65535 65535' '2 3 2 3' '3 3 2 2' '2 2 2 2' '2 3 3 2'; do
    busy
    cells=($counts "${cells[@]:4}")
    events "$crash"
done

# 1. Lengths: none, less than a header, a header alone, one too few, one too many. Every kind, and no event at all.
cells=()
events
events "$crash"
cells=(1)
events "$crash"
cells=(1 1 1)
events
events "${each_kind[@]}" '0 0 0 0 0 0' "$unknown"
cells=(1 1 1 1)
events "$crash"
cells=(2 3 2 2)
events
busy; unset "cells[-1]"
events "$crash"
busy; cells+=(0)
events "$crash"
setup 1 1 1 1; cells+=(9)
events "$crash"
setup 8 8 8 16; unset "cells[-1]"
events
setup 8 8 8 16; cells+=(0)
events
# 1 before 2: a wrong length, and a cell out of range
busy; server 1 up 2; cells+=(0)
events "$crash" "$unknown"

# 2. Every cell at its limit, at the usual setup and at the largest: sound. Rows and servers are alike.
full() { # SETUP
    setup $1
    local all_servers=$(((1 << servers) - 1)) all_databases=$(((1 << databases) - 1)) id attempt
    for ((id = 1; id <= servers; id++)); do server $id up 1 suspects $all_servers; done
    for ((id = 1; id <= databases; id++)); do database $id up 1 ready 1; done
    for ((id = 1; id <= clients; id++)); do
        client $id up 1 phase 3 attempt $attempts request 65535 delivered 65535
        for ((attempt = 1; attempt <= attempts; attempt++)); do full_row $id $attempt; done
    done
}
full_row() { # CLIENT ATTEMPT
    row $1 $2 owner $servers outcome 2 value 65535 computed 65535 sent $all_servers voted $all_databases yes $all_databases heard $all_databases \
        heard_yes $all_databases written 1 terminating $all_servers decided $all_databases committed $all_databases
    local server
    for ((server = 1; server <= servers; server++)); do row $1 $2 acked.$server $all_databases known.$server $all_databases; done
}
full '2 3 2 2'
events "$crash" '10 0 0 3 0 2' '14 2 2 3 0 0' '12 1 1 1 2 0'
full '1 1 1 1'
events '10 0 0 1 0 1' '3 1 1 1 0 0'
full '8 8 8 16'
events '10 0 0 8 0 7'

# 2. One cell above its limit, in the first and in the last party or row; everything else is sound, and the event would be accepted.
holding() { # PARTY-OR-ROW.. NAME NUMBER..
    busy
    "$@"
    events "$crash" "$unknown"
}
for id in 1 3; do
    holding server $id up 2
    holding server $id suspects 8
done
for id in 1 2; do
    holding database $id up 2
    holding database $id ready 2
    holding client $id up 2
    holding client $id phase 4
    holding client $id attempt 3
done
for result in '1 1' '2 2'; do
    holding row $result owner 4
    holding row $result outcome 3
    holding row $result written 2
    for mask in sent terminating; do holding row $result $mask 8; done
    for mask in voted yes heard heard_yes decided committed acked.1 acked.3 known.1 known.3; do holding row $result $mask 4; done
done
# masks without their low bits, and far outside
holding server 2 suspects 65528
holding row 1 2 known.2 32768
holding row 2 1 sent 65535
holding client 1 phase 65535

# 2. Attempt is 0 exactly when phase is 0: both 0, and each of them alone, for the first client and the last (P12).
for id in 1 2; do
    for phase in 1 2 3; do holding client $id phase $phase attempt 0; done
    for attempt in 1 2 3; do holding client $id phase 0 attempt $attempt; done
    holding client $id phase 0 attempt 0
done

# 2 before 3, 4, 5, 6 and 7, for every kind; and no event at all.
setup 1 1 1 1; row 1 1 written 2
events '1 1 0 0 0 700' '2 1 0 0 0 0' '3 1 1 1 0 0' '4 1 1 1 0 1' '5 1 1 0 1 1' '6 1 1 1 1 0' '7 1 1 1 1 0' '8 1 1 1 0 0' '9 0 0 1 0 1' '10 0 0 1 0 1' \
    '11 1 1 1 0 0' '12 1 1 1 1 0' '13 1 1 1 1 0' '14 1 1 1 0 0' '15 0 0 1 0 0' '16 0 0 0 1 0' '17 1 0 0 0 0' '18 0 0 0 1 0' '0 0 0 0 0 0' "$unknown" '3 1 2 1 0 0'
events
busy; client 2 phase 0
events
busy
events
setup 8 8 8 16; row 8 16 known.8 256
events
