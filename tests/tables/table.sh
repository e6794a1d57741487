# The cells of a lent table, set by their names of paper 01, and the file that stores a table with its events. Sourced by make-lent.
# A mask is written as its number: server or database i stands for 2 to the power of i - 1.

declare -A offset=(
    [server.up]=0 [server.suspects]=1 [database.up]=0 [database.ready]=1
    [client.up]=0 [client.phase]=1 [client.attempt]=2 [client.request]=3 [client.delivered]=4
    [row.owner]=0 [row.outcome]=1 [row.value]=2 [row.computed]=3 [row.sent]=4 [row.voted]=5 [row.yes]=6 [row.heard]=7 [row.heard_yes]=8
    [row.written]=9 [row.terminating]=10 [row.decided]=11 [row.committed]=12
)

# setup C A D N: begins with the fresh table of these counts, whether or not they are in range; row.acked.I and row.known.I are server I's
setup() {
    clients=$1 servers=$2 databases=$3 attempts=$4
    row_cells=$((13 + 2 * servers))
    parties=$((4 + 2 * servers + 2 * databases + 5 * clients))
    local place id
    for id in {1..9}; do unset "offset[row.acked.$id]" "offset[row.known.$id]"; done
    cells=("$@")
    for ((place = 4; place < parties + clients * attempts * row_cells; place++)); do cells[place]=0; done
    for ((id = 1; id <= servers; id++)); do
        offset[row.acked.$id]=$((12 + id))
        offset[row.known.$id]=$((12 + servers + id))
        server $id up 1
    done
    for ((id = 1; id <= databases; id++)); do database $id up 1; done
    for ((id = 1; id <= clients; id++)); do client $id up 1; done
}

# put FIRST SORT NAME NUMBER..: numbers for named cells of the party or row that starts at a place
put() {
    local first=$1 sort=$2
    shift 2
    while [ $# -gt 0 ]; do
        cells[first + ${offset[$sort.$1]:?no cell of this name}]=$2
        shift 2
    done
}

server() { put $((4 + 2 * ($1 - 1))) server "${@:2}"; }
database() { put $((4 + 2 * servers + 2 * ($1 - 1))) database "${@:2}"; }
client() { put $((4 + 2 * servers + 2 * databases + 5 * ($1 - 1))) client "${@:2}"; }
row() { put $((parties + (($1 - 1) * attempts + $2 - 1) * row_cells)) row "${@:3}"; }

# events LINE..: stores the table as it stands with these events under the next name
events() {
    number=$((number + 1))
    {
        printf '%s\n' "${cells[*]}"
        [ $# -eq 0 ] || printf '%s\n' "$@"
    } >"$data/$(printf %03d $number)"
}

# A table whose parties and rows hold numbers of all sorts, most of which no run leaves: what a rule writes elsewhere shows. The row of (1, 2)
# is fresh, and most cases set it.
busy() {
    setup 2 3 2 2
    server 1 suspects 4
    server 2 suspects 1
    server 3 suspects 3
    database 2 ready 1
    client 1 phase 1 attempt 2 request 700 delivered 9
    client 2 phase 3 attempt 1 request 800 delivered 8
    row 1 1 owner 1 outcome 2 value 7 computed 50 sent 7 voted 3 yes 1 heard 3 heard_yes 1 written 1 terminating 1 decided 3 committed 2 acked.1 3 acked.3 2 known.1 3
    row 2 1 owner 3 outcome 1 value 61 computed 60 sent 4 voted 1 yes 2 heard 2 heard_yes 3 terminating 6 decided 1 committed 1 acked.2 1 acked.3 2 known.2 2 known.3 1
    row 2 2 owner 2 value 5 sent 2 voted 2 yes 1 heard 1 heard_yes 2 written 1 terminating 4 decided 2 committed 1 acked.1 2 known.3 3
}
