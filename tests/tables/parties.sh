# Numbers 3, 4 and 5: kinds that there are not, each field of each kind, each acting party down, and which number is the lowest. Sourced by make-lent.

# A table on which each kind has an event that changes something, at the places below; kind 18 where database 1 is down.
ripe() {
    setup 2 3 2 2
    server 2 suspects 4
    database 1 ready 1
    client 1 phase 1 attempt 1 request 700
    row 1 1 owner 1 outcome 1 value 44 computed 33 heard 3 heard_yes 3 terminating 2 acked.2 2 known.3 3
    row 1 2 sent 1
    row 2 1 owner 2
    row 2 2 owner 3 computed 22 voted 1 yes 1
}
each_kind=(
    '1 2 0 0 0 800' '2 1 0 0 0 0' '3 1 2 1 0 0' '4 2 1 2 0 55' '5 2 2 0 2 1' '6 2 2 3 1 0' '7 2 2 3 1 0' '8 1 1 1 0 0' '9 0 0 1 0 3'
    '10 0 0 2 0 3' '11 2 2 2 0 0' '12 1 1 2 1 0' '13 1 1 2 2 0' '14 1 1 3 0 0' '15 0 0 1 0 0' '16 0 0 0 1 0' '17 1 0 0 0 0' '18 0 0 0 1 0'
)

# 5. All are up; all clients, all servers, all databases are down: those that act in an event and those that do not.
ripe
events "${each_kind[@]}"
ripe; client 1 up 0; client 2 up 0
events "${each_kind[@]}"
ripe; server 1 up 0; server 2 up 0; server 3 up 0
events "${each_kind[@]}"
ripe; database 1 up 0; database 2 up 0
events "${each_kind[@]}"
# one of each is down: the party that acts is the one named, and a server that is named by another does not act
ripe; client 1 up 0; server 1 up 0; database 1 up 0
events "${each_kind[@]}"
ripe; client 2 up 0; server 2 up 0; database 2 up 0
events "${each_kind[@]}"
ripe; server 3 up 0
events "${each_kind[@]}" '9 0 0 3 0 1' '10 0 0 3 0 1'

# 5 before 6 and 7: everyone is down and nothing was sent. The counts differ, and every field is at its largest number.
down() {
    setup 1 2 3 4
    client 1 up 0
    for id in 1 2; do server $id up 0; done
    for id in 1 2 3; do database $id up 0; done
}
largest=(
    '1 1 0 0 0 65535' '2 1 0 0 0 0' '3 1 4 2 0 0' '4 1 4 2 0 65535' '5 1 4 0 3 2' '6 1 4 2 3 0' '7 1 4 2 3 0' '8 1 4 2 0 0' '9 0 0 2 0 2'
    '10 0 0 2 0 2' '11 1 4 2 0 0' '12 1 4 2 3 0' '13 1 4 2 3 0' '14 1 4 2 0 0' '15 0 0 2 0 0' '16 0 0 0 3 0' '17 1 0 0 0 0' '18 0 0 0 3 0'
)
down
events "${largest[@]}"
# clients that are down where rules 1, 2 and 14 would refuse
busy; client 1 up 0; client 2 up 0
events '1 1 0 0 0 700' '1 2 0 0 0 700' '2 2 0 0 0 0' '14 1 2 1 0 0'
# everyone is up: 6 and 7
setup 1 2 3 4
events "${largest[@]}"

# 4 before 5: of each kind, each field that is used is 0 and one more than its largest number, each that is not used is 1.
wrong=()
for line in "${largest[@]}"; do
    read -r -a fields <<<"$line"
    for place in 1 2 3 4 5; do
        limit=${fields[place]}
        others=("${fields[@]}")
        if [ "$limit" -eq 0 ]; then
            others[place]=1
            wrong+=("${others[*]}")
            continue
        fi
        others[place]=0
        wrong+=("${others[*]}")
        # a value of 65535 has nothing above it
        [ "$limit" -eq 65535 ] || {
            others[place]=$((limit + 1))
            wrong+=("${others[*]}")
        }
    done
done
down
events "${wrong[@]}"

# 3 before 4 and 5.
down
events '0 0 0 0 0 0' '0 1 4 2 3 1' '19 0 0 0 0 0' '19 9 9 9 9 9' '65535 1 1 1 1 1'
busy
events '19 0 0 1 0 0' '0 1 0 0 0 0'

# A list is refused behind accepted events by each number that an event can give.
for refused in '19 0 0 0 0 0' '4 2 1 2 0 0' '16 0 0 0 1 0' '13 1 1 1 1 0' '8 1 1 1 0 0'; do
    ripe
    events '16 0 0 0 1 0' '8 1 1 1 0 0' '3 1 2 1 0 0' "$refused" '4 2 1 2 0 55'
done

# A run from a table in the middle of things: the owner's attempt is cleaned, the client goes on, and its next attempt commits.
setup 1 2 2 2
server 2 suspects 1
client 1 phase 1 attempt 1 request 700 delivered 4
row 1 1 owner 1 value 3 computed 50 sent 1 voted 1 yes 3 heard 1 heard_yes 3 committed 3
row 1 2 value 6 yes 3 heard_yes 3 committed 3
events '11 1 1 2 0 0' '12 1 1 2 1 0' '12 1 1 2 2 0' '5 1 1 0 2 1' '13 1 1 2 1 0' '13 1 1 2 2 0' '6 1 1 1 2 0' '8 1 1 1 0 0' '14 1 1 2 0 0' \
    '3 1 2 1 0 0' '4 1 2 1 0 55' '5 1 2 0 1 1' '5 1 2 0 2 1' '6 1 2 1 1 0' '6 1 2 1 2 0' '8 1 2 1 0 0' '12 1 2 1 1 0' '12 1 2 1 2 0' \
    '13 1 2 1 1 0' '13 1 2 1 2 0' '14 1 2 1 0 0' '14 1 2 1 0 0' '2 1 0 0 0 0'

# The same at the smallest setup, from a claim on.
setup 1 1 1 1
client 1 phase 1 attempt 1 request 65535 delivered 65535
row 1 1 owner 1 value 65535 sent 1 yes 1 heard_yes 1 committed 1
events '4 1 1 1 0 65535' '5 1 1 0 1 1' '6 1 1 1 1 0' '8 1 1 1 0 0' '12 1 1 1 1 0' '13 1 1 1 1 0' '14 1 1 1 0 0' '11 1 1 1 0 0' '9 0 0 1 0 1'
setup 1 1 1 1
client 1 phase 1 attempt 1 request 1
database 1 ready 1
row 1 1 owner 1 value 9 computed 2 heard_yes 1 committed 1
events '7 1 1 1 1 0' '8 1 1 1 0 0' '12 1 1 1 1 0' '13 1 1 1 1 0' '14 1 1 1 0 0' '2 1 0 0 0 0'

# At the largest setup, in the last row, by the last parties.
setup 8 8 8 16
server 7 suspects 128
database 8 ready 1
client 8 phase 1 attempt 16 request 700
row 8 16 owner 8 computed 55 sent 128 voted 255 yes 255 heard 127 heard_yes 255 acked.7 128 known.7 127
events '7 8 16 8 8 0' '8 8 16 8 0 0' '11 8 16 7 0 0' '12 8 16 8 8 0' '13 8 16 7 8 0' '14 8 16 7 0 0' '9 0 0 8 0 8'
