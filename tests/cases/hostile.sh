# The cases that are not well-formed or not in range: each field of each kind, and bytes at every sort of place. Sourced by make-cases.

# Each field of each kind at setup 2 3 2 3: the largest number of client, attempt, server, database and value, 0 where the field is not used.
limits=(
    '' '2 0 0 0 65535' '2 0 0 0 0' '2 3 3 0 0' '2 3 3 0 65535' '2 3 0 2 2' '2 3 3 2 0' '2 3 3 2 0' '2 3 3 0 0' '0 0 3 0 3'
    '0 0 3 0 3' '2 3 3 0 0' '2 3 3 2 0' '2 3 3 2 0' '2 3 3 0 0' '0 0 3 0 0' '0 0 0 2 0' '2 0 0 0 0' '0 0 0 2 0'
)

# An event of a kind whose fields are all 1 where used, but for the field at a place.
with_field() { # KIND PLACE NUMBER
    local -a fields
    read -r -a fields <<<"${limits[$1]}"
    local place line=$1
    for place in 0 1 2 3 4; do
        if [ "$place" -eq "$2" ]; then line+=" $3"; else line+=" $((fields[place] > 0))"; fi
    done
    echo "$line"
}

for kind in {1..18}; do
    read -r -a most <<<"${limits[$kind]}"
    for place in 0 1 2 3 4; do
        if [ "${most[place]}" -eq 0 ]; then
            lines '2 3 2 3' '1 1 0 0 0 9' "$(with_field "$kind" "$place" $(((kind + place) % 2 ? 1 : 65535)))"
        else
            lines '2 3 2 3' '1 1 0 0 0 9' "$(with_field "$kind" "$place" 0)"
            lines '2 3 2 3' '1 1 0 0 0 9' "$(with_field "$kind" "$place" $((most[place] + 1)))"
        fi
    done
done

# Counts outside their ranges, and at their ends.
for setup in '0 1 1 1' '1 0 1 1' '1 1 0 1' '1 1 1 0' '9 1 1 1' '1 9 1 1' '1 1 9 1' '1 1 1 17' '65535 65535 65535 65535' '0 0 0 0' '8 8 8 17'; do
    lines "$setup" '1 1 0 0 0 1'
done

# The first line: missing, without its end, malformed.
for input in '' '\n' '1 1 1 1' '1 1 1\n' '1 1 1 1 1\n' ' 1 1 1 1\n' '1 1 1 1 \n' '1  1 1 1\n' '1\t1 1 1\n' '1 1 1 1\r\n' '01 1 1 1\n' '1 1 1 00\n' \
    '+1 1 1 1\n' '1 -1 1 1\n' '1 1 1 65536\n' '1 1 1 99999999999999999999\n' '1 1 1 18446744073709551617\n' '1 1 1 a\n' '0x1 1 1 1\n' '1 1 1 1.\n' \
    '\0\n' '1 1 1 1\0\n' '1 1 1 \0361\n' '\0357\0273\02771 1 1 1\n' '\n1 1 1 1\n' '1,1,1,1\n' '1 1 1 4294967297\n' '9 1 1 a\n'; do
    bytes "$input"
done

# An event line: the same, behind one that is accepted and before one that would be.
for line in '' ' ' '2 1 0 0 0' '2 1 0 0 0 0 0' ' 2 1 0 0 0 0' '2 1 0 0 0 0 ' '2 1  0 0 0 0' '2\t1 0 0 0 0' '2 1 0 0 0 0\r' '02 1 0 0 0 0' '2 1 00 0 0 0' \
    '2 1 0 0 0 -0' '+2 1 0 0 0 0' '65536 1 0 0 0 0' '2 1 0 0 0 65536' '2 1 99999999999999999999 0 0 0' '2 1 0 0 0 0a' 'two 1 0 0 0 0' '2 1 0 0 0 \0' \
    '2 1 0 0 0 0\0' '2 1 0 \0377 0 0' '2 1 0 0 0 0\0240' '2 1 0 0 0 0 #' '1 1 0 0 0 065535' '2 1 0 0 0 0\v' '2 1 0 0 0 4294967296'; do
    bytes "1 2 1 2\n1 1 0 0 0 700\n$line\n2 1 0 0 0 0\n"
done

# The end of the input: no newline, an empty line, a carriage return alone, a byte of nothing.
for end in '2 1 0 0 0 0' '2 1 0' '2 1 0 0 0 ' '2 1 0 0 0 0\n\n' '2 1 0 0 0 0\n\n\n' '2 1 0 0 0 0\n ' '2 1 0 0 0 0\r' '2 1 0 0 0 0\n\0' '2 1 0 0 0 0\n\032'; do
    bytes "1 2 1 2\n1 1 0 0 0 700\n$end"
done
bytes '1 2 1 2\n\n1 1 0 0 0 700\n'

# The longest inputs that are looked at, 65,536 bytes: all of it accepted, its last byte no newline; then a byte more, and many.
setup='1 2 1 2'
issue='1 1 0 0 0 65535'
timeout='2 1 0 0 0 0'
trust='10 0 0 1 0 2'
longest() { # prints 65,535 bytes behind which a newline makes the longest input
    printf '%s\n' "$setup" "$issue"
    repeat 5455 "$timeout"
    repeat 3 "$trust"
    printf '%s' "$trust"
}
store < <(longest && printf '\n')
store < <(longest && printf ' ')
store < <(longest)
store < <(longest && printf '\n1')
store < <(longest && printf '\n\n')
store < <(longest && longest)
store < <(printf 'x' && longest && longest)
store < <(repeat 5000 '0 0 0 0 0 0')
