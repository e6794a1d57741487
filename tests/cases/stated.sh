# The cases that are stated line by line: the paper's examples, each rule with its limits, and runs on which an error that looks right would show.
# Sourced by make-cases; setup 1 2 1 2 where nothing else is said.

issue='1 1 0 0 0 700'
request='3 1 1 1 0 0'
compute='4 1 1 1 0 55'
yes='5 1 1 0 1 1'
no='5 1 1 0 1 2'
vote='6 1 1 1 1 0'
ready='7 1 1 1 1 0'
write='8 1 1 1 0 0'
suspect='9 0 0 2 0 1'
trust='10 0 0 2 0 1'
clean='11 1 1 2 0 0'
decide='12 1 1 1 1 0'
decide_by_2='12 1 1 2 1 0'
ack='13 1 1 1 1 0'
ack_at_2='13 1 1 2 1 0'
result='14 1 1 1 0 0'
result_by_2='14 1 1 2 0 0'
timeout='2 1 0 0 0 0'
server_1_crashes='15 0 0 1 0 0'
server_2_crashes='15 0 0 2 0 0'
database_crashes='16 0 0 0 1 0'
client_crashes='17 1 0 0 0 0'
database_recovers='18 0 0 0 1 0'

claimed=("$issue" "$request")
prepared=("${claimed[@]}" "$compute" "$yes")
committed=("${prepared[@]}" "$vote" "$write")
delivered=("${committed[@]}" "$decide" "$ack" "$result")
refused=("${claimed[@]}" "$compute" "$no" "$vote" "$write")
aborted=("${refused[@]}" "$decide" "$ack" "$result")
cleaned=("$suspect" "$clean")
by_cleaner=("$decide_by_2" "$ack_at_2" "$result_by_2")

run() { lines '1 2 1 2' "$@"; }

# L1 and P1 to P11; P12 is about a table that no list makes.
run "${claimed[@]}" "$compute" "${cleaned[@]}" "$decide_by_2" "$yes" "$ack_at_2" "$result_by_2" '3 1 2 2 0 0'
run "${claimed[@]}" "$compute" "${cleaned[@]}" "$decide_by_2" "$yes" "$ack_at_2" "$result_by_2"
run "${delivered[@]}"
run "${prepared[@]}" "$write"
run "${aborted[@]}"
run "${prepared[@]}" "$database_crashes" "$database_recovers" "$ready" "$vote" "$write" "$decide" "$ack" "$result"
run '1 1 0 0 0 0'
run '1 1 0 0 0 65535'
run '9 0 0 2 0 2'
run "$server_1_crashes" "$server_1_crashes"
lines '1 2 1 1' "${aborted[@]}"
lines '1 9 1 1'

# No event at all, at the smallest and the largest setup.
lines '1 1 1 1'
lines '8 8 8 16'

# The client: issues once, times out only while it waits, and does nothing once it is down.
run "$issue" "$issue"
run "$timeout"
run "$issue" "$timeout" "$timeout" '3 1 1 2 0 0' "$request"
run "${delivered[@]}" "$timeout"
lines '1 2 1 1' "${aborted[@]}" "$result" "$timeout"
run "$client_crashes" "$issue"
run "$issue" "$client_crashes" "$timeout"
run "${committed[@]}" "$decide" "$ack" "$client_crashes" "$result"
run "$client_crashes" "$client_crashes"

# A claim needs the request, and the first one stays.
run "$request"
run "$issue" '3 1 1 2 0 0'
run "$issue" "$timeout" '3 1 1 2 0 0' "$request" "$compute"
run "${claimed[@]}" "$request" "$timeout" "$request" "$compute" "$request" '4 1 1 1 0 56'
run "$issue" "$server_1_crashes" "$request"
run "$issue" '3 1 2 1 0 0'
run "${aborted[@]}" '3 1 2 1 0 0' '4 1 2 1 0 65535'

# Compute: at the owner, once.
run "$issue" "$compute"
run "${claimed[@]}" '4 1 1 2 0 55'
run "${claimed[@]}" "$server_1_crashes" "$compute"

# Prepare: only once computed; the first vote stays; after a decision it is no.
run "${claimed[@]}" "$yes"
run "${prepared[@]}" "$no" "$vote" "$write"
run "${claimed[@]}" "$compute" "$no" "$yes" "$vote" "$write"
run "${claimed[@]}" "$compute" "$database_crashes" "$yes"
run "${claimed[@]}" "$compute" "${cleaned[@]}" "$decide_by_2" "$yes" "$vote" "$write" "$decide" "$ack" "$result"

# Vote: to the owner alone, and once heard it stays.
run "${claimed[@]}" "$compute" "$vote"
run "${prepared[@]}" '6 1 1 2 1 0'
run "${prepared[@]}" "$vote" "$vote" "$write" "$vote" "$write"
run "${prepared[@]}" "$server_1_crashes" "$vote"
run "${prepared[@]}" "$vote" "$database_crashes" "$database_recovers" "$ready" "$write" "$decide"

# Ready: after a recovery, at the owner; at another server it changes nothing; it counts in later attempts too.
run "${claimed[@]}" "$compute" "$ready"
run "$database_crashes" "$database_recovers" '7 1 1 2 1 0' "${claimed[@]}" "$ready" '7 1 1 2 1 0' "$compute" '7 1 1 2 1 0' "$write"
run "$database_crashes" "$database_recovers" "${claimed[@]}" "$compute" "$ready" "$write" "$decide" "$ack" "$result" \
    '3 1 2 1 0 0' '4 1 2 1 0 56' '7 1 2 1 1 0' '5 1 2 0 1 1' '6 1 2 1 1 0' '8 1 2 1 0 0' '12 1 2 1 1 0' '13 1 2 1 1 0' '14 1 2 1 0 0'
run "$database_crashes" "$database_recovers" "${committed[@]}" "$ready" "$decide" "$ack" "$result"

# Write: at the owner, computed, once, all heard.
run "${prepared[@]}" "$vote" '8 1 1 2 0 0'
run "${committed[@]}" "$write"
run "${claimed[@]}" "$write"
run "${prepared[@]}" "$vote" "$server_1_crashes" "$write"
lines '1 1 2 1' "${prepared[@]}" "$vote" "$write"
lines '1 1 2 1' "${prepared[@]}" '5 1 1 0 2 2' "$vote" '6 1 1 1 2 0' "$write" "$decide" '12 1 1 1 2 0'
lines '1 1 2 1' "${prepared[@]}" '5 1 1 0 2 1' "$vote" '6 1 1 1 2 0' "$write" "$decide" '12 1 1 1 2 0' "$ack" "$result"

# Suspect and trust; clean asks for a suspected owner that is another server.
run "$suspect" "$suspect" "$trust" "$trust" '10 0 0 2 0 2'
run '10 0 0 1 0 1'
run "$suspect" "$clean"
run "${claimed[@]}" "$clean"
run "${claimed[@]}" "$suspect" "$trust" "$clean"
run "${claimed[@]}" "$suspect" '11 1 1 1 0 0'
run "${claimed[@]}" "$suspect" "$server_2_crashes" "$clean"
run "${claimed[@]}" "${cleaned[@]}" "$clean" "$decide_by_2" "$clean" "$ack_at_2" "$result_by_2" "$clean"

# A wrong suspicion; a slow owner that writes after the cleaner's abort; a clean after a commit.
run "${prepared[@]}" "$vote" "${cleaned[@]}" "$write" "$decide" "$ack" "$result"
run "${prepared[@]}" "$vote" "${cleaned[@]}" "$decide_by_2" "$write" "$decide" "$ack_at_2" "$result_by_2" "$ack" "$result"
run "${committed[@]}" "${cleaned[@]}" "${by_cleaner[@]}" "$decide" "$ack" "$result"
run "${committed[@]}" "$server_1_crashes" "${cleaned[@]}" "${by_cleaner[@]}"
run "${committed[@]}" "$server_1_crashes" "$decide" "${cleaned[@]}" "$server_2_crashes" "$decide_by_2"

# Decide: sent by a server that terminates; the sender may be down, the database not.
run "${prepared[@]}" "$vote" "$decide"
run "${committed[@]}" "$decide_by_2"
run "${committed[@]}" "$database_crashes" "$decide"
run "${committed[@]}" "$database_crashes" "$database_recovers" "$decide" "$decide" "$ack" "$ack" "$result" "$result"

# Acknowledgements: to the sender of the decide, and a result only on all of one server's own.
run "${committed[@]}" "$ack"
run "${committed[@]}" "${cleaned[@]}" "$decide" "$ack_at_2"
run "${committed[@]}" "$decide" "$server_1_crashes" "$ack"
run "${prepared[@]}" "$vote" "$result"
run "${committed[@]}" "$decide" "$result"
run "${committed[@]}" "${cleaned[@]}" "$decide" "$ack" "$result_by_2"
run "${committed[@]}" "$decide" "$ack" "$server_1_crashes" "$result"
half=("${prepared[@]}" '5 1 1 0 2 1' "$vote" '6 1 1 1 2 0' "$write" "${cleaned[@]}" "$decide" '12 1 1 2 2 0' "$ack" '13 1 1 2 2 0')
lines '1 2 2 1' "${half[@]}" "$result"
lines '1 2 2 1' "${half[@]}" "$result_by_2"
lines '1 2 2 1' "${half[@]}" '12 1 1 1 2 0' '13 1 1 1 2 0' "$result" "$result_by_2"

# A result of an earlier attempt changes nothing; the next attempt is server 1's to begin with; after the last the client gives up.
run "${aborted[@]}" "$result" '3 1 2 1 0 0' "$result"
run "${aborted[@]}" '3 1 2 2 0 0'
run "${aborted[@]}" "$server_1_crashes" "$timeout" '3 1 2 2 0 0' '4 1 2 2 0 9' '5 1 2 0 1 1' '6 1 2 2 1 0' '8 1 2 2 0 0' '12 1 2 2 1 0' \
    '13 1 2 2 1 0' '14 1 2 2 0 0' "$result" '14 1 2 2 0 0'
lines '1 2 1 1' "${aborted[@]}" "$result" "$issue"
run "${delivered[@]}" "$issue"

given_up=()
for attempt in {1..16}; do
    given_up+=("3 1 $attempt 1 0 0" "4 1 $attempt 1 0 $attempt" "5 1 $attempt 0 1 2" "6 1 $attempt 1 1 0" "8 1 $attempt 1 0 0" "12 1 $attempt 1 1 0" \
        "13 1 $attempt 1 1 0" "14 1 $attempt 1 0 0")
done
lines '1 1 1 16' "$issue" "${given_up[@]}" '14 1 16 1 0 0' '14 1 1 1 0 0' "$timeout"

# A server's decisions belong to results: one client's commit beside another's abort at the same owner and the same cleaner.
lines '2 2 1 1' "$issue" '1 2 0 0 0 800' "$request" '3 2 1 1 0 0' "$compute" '4 2 1 1 0 66' "$yes" '5 2 1 0 1 2' "$vote" '6 2 1 1 1 0' "$write" \
    "${cleaned[@]}" '8 2 1 1 0 0' '11 2 1 2 0 0' '12 2 1 2 1 0' "$decide_by_2" "$decide" '12 2 1 1 1 0' '13 2 1 1 1 0' "$ack_at_2" '14 2 1 1 0 0' "$result_by_2"

# Databases crash and recover, in that order.
run "$database_recovers"
run "$database_crashes" "$database_recovers" "$database_recovers"
run "$database_crashes" "$database_crashes"

# The lowest number is given: 3 before 4, 4 before 5, 5 before 6 and 7.
run '19 9 9 9 9 9'
run '0 0 0 0 0 0'
run '65535 1 1 1 1 1'
run "$server_1_crashes" '3 1 3 1 0 0'
run "$server_1_crashes" '9 0 0 1 0 1'
run "$database_crashes" "$decide"
run "$client_crashes" "$result"
run "$client_crashes" "$timeout"
