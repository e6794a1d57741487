# Rules 1 to 18 clause by clause, each condition true and false, on tables that no run makes. Sourced by make-lent.
# The row is (1, 2) of the busy table where nothing else is said: client 1 waits for attempt 2, the last.

# 1. Phase must be 0: idle and given up; waiting and delivered. A stray delivered value and server 3's bit stay.
busy; client 1 phase 0 attempt 0 request 3; row 1 1 sent 4
events '1 1 0 0 0 700' '1 1 0 0 0 65535' '1 2 0 0 0 1'
busy; client 2 phase 2
events '1 1 0 0 0 700' '1 2 0 0 0 700'

# 2. Phase must be 1: the current attempt's request is sent to every server; sent to all before; idle, delivered, given up.
busy; row 1 2 sent 4; client 2 phase 1
events '2 1 0 0 0 0' '2 2 0 0 0 0'
busy; client 1 phase 1 attempt 1; client 2 phase 0 attempt 0
events '2 1 0 0 0 0' '2 2 0 0 0 0'
busy; client 1 phase 2
events '2 1 0 0 0 0' '2 2 0 0 0 0'

# 3. Sent if the server's bit is in the row. An owner of 0 becomes this server, whatever else the row holds.
busy; row 1 2 sent 5 outcome 1 value 9 computed 4 written 1 decided 3
events '3 1 2 3 0 0' '3 1 2 1 0 0' '3 1 2 2 0 0'
# an owner stays, for another server and for itself
busy; row 1 2 sent 5 owner 3
events '3 1 2 1 0 0' '3 1 2 3 0 0' '3 1 2 2 0 0'
# not sent for this attempt, though for others of the client, and of the other client
busy
events '3 1 1 2 0 0' '3 1 2 1 0 0' '3 1 2 2 0 0' '3 2 1 1 0 0'

# 4. The server must be owner and computed 0.
busy; row 1 2 owner 2 value 9
events '4 1 2 2 0 55' '4 1 2 2 0 65535' '4 1 2 2 0 1' '4 1 2 1 0 55' '4 1 2 3 0 55'
# nothing else is asked: a decision, votes and a write may be there
busy; row 1 2 owner 2 outcome 1 value 9 voted 3 yes 2 heard 3 written 1 terminating 2
events '4 1 2 2 0 55'
busy; row 1 2 owner 2 computed 7
events '4 1 2 2 0 55' '4 1 2 2 0 7' '4 1 2 1 0 55'
busy
events '4 1 2 1 0 55' '4 1 2 2 0 55' '4 1 2 3 0 55'

# 5. Sent if computed is not 0; the owner is not asked. A database that has not voted votes as the event says.
busy; row 1 2 computed 55
events '5 1 2 0 1 1' '5 1 2 0 2 1' '5 1 2 0 1 2' '5 1 2 0 2 2'
# a stray yes is overwritten, and the other database's stays
busy; row 1 2 owner 2 computed 55 yes 3
events '5 1 2 0 1 2' '5 1 2 0 2 1'
# no if it has decided this result; the other one has not
busy; row 1 2 owner 2 computed 55 decided 2 committed 2
events '5 1 2 0 2 1' '5 1 2 0 1 1'
busy; row 1 2 owner 2 computed 55 yes 3 outcome 2 terminating 2 decided 3
events '5 1 2 0 1 1' '5 1 2 0 2 2'
# a decision that has not reached the database, and a write, change nothing here
busy; row 1 2 owner 2 computed 55 outcome 1 value 55 written 1 terminating 2 heard 3 committed 3
events '5 1 2 0 1 1' '5 1 2 0 2 2'
# a vote stays, decided or not
busy; row 1 2 owner 2 computed 55 voted 3 yes 1
events '5 1 2 0 1 2' '5 1 2 0 2 1' '5 1 2 0 1 1'
busy; row 1 2 owner 2 computed 55 voted 3 yes 1 decided 3
events '5 1 2 0 1 1' '5 1 2 0 2 1'
# nothing is computed for this result
busy; row 1 2 owner 2 value 55 voted 2
events '5 1 2 0 1 1' '5 1 2 0 2 1' '5 2 2 0 1 1'

# 6. Sent if the server is owner and the database has voted. It is heard, as yes or not.
busy; row 1 2 owner 2 computed 55 voted 3 yes 1
events '6 1 2 2 1 0' '6 1 2 2 2 0' '6 1 2 1 1 0' '6 1 2 3 2 0'
# a stray heard-yes is overwritten, and the other database's stays
busy; row 1 2 owner 2 computed 55 voted 3 yes 1 heard_yes 3
events '6 1 2 2 2 0' '6 1 2 2 1 0'
# a decision is not asked
busy; row 1 2 owner 2 computed 55 voted 3 yes 2 outcome 2 value 9 terminating 1 decided 3
events '6 1 2 2 2 0' '6 1 2 2 1 0'
# computed 0; written 1; heard before, once as yes and once not, though it voted otherwise
busy; row 1 2 owner 2 voted 3 yes 3
events '6 1 2 2 1 0' '6 1 2 2 2 0'
busy; row 1 2 owner 2 computed 55 voted 3 yes 3 written 1
events '6 1 2 2 1 0' '6 1 2 2 2 0'
busy; row 1 2 owner 2 computed 55 voted 3 yes 1 heard 3 heard_yes 2
events '6 1 2 2 1 0' '6 1 2 2 2 0'
busy; row 1 2 owner 2 computed 55 voted 3 yes 3 heard 1
events '6 1 2 2 1 0' '6 1 2 2 2 0'
# not voted, with a stray yes; no owner
busy; row 1 2 owner 2 computed 55 voted 1 yes 3
events '6 1 2 2 1 0' '6 1 2 2 2 0'
busy; row 1 2 computed 55 voted 3 yes 3
events '6 1 2 1 1 0' '6 1 2 2 1 0' '6 1 2 3 1 0'

# 7. Sent if the database's ready cell is 1: database 2's is. At the owner it is heard, not as yes; has voted is not asked, and a stray heard-yes goes.
busy; row 1 2 owner 2 computed 55 heard_yes 3
events '7 1 2 2 2 0' '7 1 2 1 2 0' '7 1 2 3 2 0' '7 1 2 2 1 0' '7 1 2 1 1 0'
# a yes that was cast is not heard by it, and a decision is not asked
busy; database 1 ready 1; row 1 2 owner 2 computed 55 voted 3 yes 3 outcome 1 value 55 terminating 1 decided 1 committed 1
events '7 1 2 2 1 0' '7 1 2 2 2 0'
# at another server, or where there is no owner, nothing changes
busy; database 1 ready 1; row 1 2 owner 3 computed 55
events '7 1 2 1 1 0' '7 1 2 2 2 0' '7 1 2 3 1 0'
busy; database 1 ready 1; row 1 2 computed 55
events '7 1 2 1 1 0' '7 1 2 2 1 0' '7 1 2 3 2 0'
# computed 0; written 1; heard before
busy; row 1 2 owner 2 voted 3 yes 3
events '7 1 2 2 2 0'
busy; row 1 2 owner 2 computed 55 written 1
events '7 1 2 2 2 0'
busy; database 1 ready 1; row 1 2 owner 2 computed 55 heard 3 heard_yes 1
events '7 1 2 2 1 0' '7 1 2 2 2 0'
# a database that is down again, and a ready that was not sent though the database voted
busy; database 2 up 0; row 1 2 owner 2 computed 55 voted 3 yes 3
events '7 1 2 2 2 0' '7 1 2 2 1 0' '7 1 2 3 1 0'

# 8. Owner, computed, not written, all heard. Heard as yes by all it offers commit with the computed value; the stray value goes.
busy; row 1 2 owner 2 value 9 computed 55 heard 3 heard_yes 3
events '8 1 2 2 0 0' '8 1 2 1 0 0' '8 1 2 3 0 0'
# heard as yes by some or by none it offers abort with 0, whatever was voted
busy; row 1 2 owner 2 value 9 computed 55 voted 3 yes 3 heard 3 heard_yes 1
events '8 1 2 2 0 0'
busy; row 1 2 owner 2 value 9 computed 55 voted 3 yes 3 heard 3 heard_yes 2 terminating 5
events '8 1 2 2 0 0'
busy; row 1 2 owner 2 value 9 computed 55 voted 3 yes 3 heard 3
events '8 1 2 2 0 0'
# a register that is written stays, with its value, stray or not, against either offer
busy; row 1 2 owner 2 outcome 1 value 77 computed 55 heard 3 heard_yes 1
events '8 1 2 2 0 0'
busy; row 1 2 owner 2 outcome 1 value 77 computed 55 heard 3 heard_yes 3 terminating 2
events '8 1 2 2 0 0'
busy; row 1 2 owner 2 outcome 2 value 9 computed 55 heard 3 heard_yes 3 terminating 1
events '8 1 2 2 0 0'
busy; row 1 2 owner 2 outcome 2 value 9 computed 55 heard 3 heard_yes 1
events '8 1 2 2 0 0'
# computed 0; written 1; one unheard, though heard as yes; none heard, though all voted; no owner
busy; row 1 2 owner 2 voted 3 yes 3 heard 3 heard_yes 3
events '8 1 2 2 0 0'
busy; row 1 2 owner 2 computed 55 voted 3 yes 3 heard 3 heard_yes 3 written 1
events '8 1 2 2 0 0'
busy; row 1 2 owner 2 computed 55 voted 3 yes 3 heard 1 heard_yes 3
events '8 1 2 2 0 0'
busy; row 1 2 owner 2 computed 55 voted 3 yes 3 heard 2 heard_yes 2
events '8 1 2 2 0 0'
busy; row 1 2 owner 2 computed 55 voted 3 yes 3 heard_yes 3
events '8 1 2 2 0 0'
busy; row 1 2 computed 55 voted 3 yes 3 heard 3 heard_yes 3
events '8 1 2 1 0 0' '8 1 2 2 0 0' '8 1 2 3 0 0'

# 9, 10. A server may not name itself: a stray bit of its own stays. A bit is set or cleared, also where it was so before.
busy; server 1 suspects 0; server 2 suspects 2; server 3 suspects 7
events '9 0 0 1 0 2' '9 0 0 1 0 3' '9 0 0 2 0 1' '9 0 0 2 0 3' '9 0 0 3 0 1' '9 0 0 1 0 1' '9 0 0 2 0 2' '9 0 0 3 0 3'
busy; server 1 suspects 7; server 2 suspects 7; server 3 suspects 4
events '10 0 0 1 0 2' '10 0 0 1 0 3' '10 0 0 2 0 1' '10 0 0 2 0 3' '10 0 0 3 0 1' '10 0 0 1 0 1' '10 0 0 2 0 2' '10 0 0 3 0 3'

# 11. Owner must not be 0 or this server, and must be suspected by it. The register is empty: abort with 0; the stray value goes.
busy; server 1 suspects 2; server 2 suspects 7; server 3 suspects 5; row 1 2 owner 2 value 9 computed 55 heard 3 heard_yes 3
events '11 1 2 1 0 0' '11 1 2 3 0 0' '11 1 2 2 0 0'
# the register stays: a commit, an abort with a stray value; a repeat; after the owner's write
busy; server 1 suspects 2; row 1 2 owner 2 outcome 1 value 55 computed 55 written 1 terminating 2
events '11 1 2 1 0 0' '11 1 2 3 0 0'
busy; server 1 suspects 6; server 3 suspects 6; row 1 2 owner 2 outcome 2 value 9 terminating 1
events '11 1 2 1 0 0' '11 1 2 3 0 0'
# no owner, and everyone suspects everyone; a terminating server that no longer suspects
busy; server 1 suspects 7; server 2 suspects 7; server 3 suspects 7
events '11 2 1 1 0 0' '11 1 2 1 0 0' '11 1 2 2 0 0' '11 1 2 3 0 0'
busy; server 1 suspects 5; row 1 2 owner 2 outcome 2 terminating 1
events '11 1 2 1 0 0'
# a server that suspects itself and owns the row
busy; server 1 suspects 1; row 1 2 owner 1
events '11 1 2 1 0 0' '11 1 2 2 0 0'

# 12. Sent if the sender is terminating and outcome is not 0. An undecided database decides by the outcome, over a stray committed.
busy; row 1 2 owner 1 outcome 1 value 55 terminating 2
events '12 1 2 2 1 0' '12 1 2 2 2 0' '12 1 2 1 1 0' '12 1 2 3 2 0'
busy; row 1 2 owner 2 outcome 1 value 55 terminating 6 committed 2
events '12 1 2 2 1 0' '12 1 2 3 2 0' '12 1 2 1 1 0'
busy; row 1 2 owner 2 outcome 2 value 9 computed 55 yes 3 terminating 3 committed 3
events '12 1 2 2 1 0' '12 1 2 1 2 0'
# one that has decided stays so, also against the outcome; the acknowledgement is sent in any case
busy; row 1 2 owner 2 outcome 1 value 55 terminating 3 decided 3 committed 1 acked.2 1
events '12 1 2 2 2 0' '12 1 2 1 1 0' '12 1 2 2 1 0'
busy; row 1 2 owner 2 outcome 2 terminating 3 decided 3 committed 3 acked.1 3
events '12 1 2 2 1 0' '12 1 2 1 1 0'
# outcome 0, though terminating and decided; terminating in another row alone
busy; row 1 2 owner 2 value 55 terminating 7 decided 3 committed 3
events '12 1 2 2 1 0' '12 1 2 1 2 0' '12 1 2 3 1 0'
busy; row 1 2 owner 2 outcome 1 value 55 written 1 decided 1
events '12 2 1 2 2 0' '12 1 2 2 1 0' '12 1 2 3 1 0'

# 13. Sent if its bit is set. The server knows it, also where nothing is decided; another database's and another server's do not count.
busy; row 1 2 acked.1 1 acked.2 2 known.2 1
events '13 1 2 1 1 0' '13 1 2 2 2 0' '13 1 2 1 2 0' '13 1 2 2 1 0' '13 1 2 3 1 0'
busy; row 1 2 owner 2 outcome 1 value 55 terminating 4 decided 3 committed 3 acked.3 3 known.3 2
events '13 1 2 3 1 0' '13 1 2 3 2 0' '13 1 2 2 1 0'

# 14. Sent if outcome is not 0 and the sender knows all D acknowledgements; what was sent to it and whether it terminates is not asked.
# Commit: delivered, over a stray value.
busy; row 1 2 outcome 1 value 55 computed 56 acked.1 3 known.1 1 known.2 3
events '14 1 2 2 0 0' '14 1 2 1 0 0' '14 1 2 3 0 0'
busy; row 1 2 outcome 1 known.1 3 known.2 2
events '14 1 2 1 0 0' '14 1 2 2 0 0' '14 1 2 3 0 0'
# abort at the last attempt, a stray value beside it
busy; row 1 2 owner 2 outcome 2 value 9 known.3 3
events '14 1 2 3 0 0'
# abort before it: the next attempt, whatever its row holds; server 2's bit stays
busy; client 1 attempt 1; row 1 2 owner 3 outcome 1 value 55 sent 2
events '14 1 1 1 0 0' '14 1 1 2 0 0' '14 1 1 3 0 0'
busy; client 2 phase 1; row 2 1 outcome 2 known.2 3; row 2 2 sent 0
events '14 2 1 2 0 0' '14 2 1 3 0 0' '14 2 2 3 0 0'
# outcome 0
busy; row 1 2 owner 2 value 55 terminating 7 decided 3 committed 3 acked.2 3 known.2 3
events '14 1 2 2 0 0'
# the attempt is not the current one: an earlier one, aborted or committed; a later one
busy
events '14 1 1 1 0 0'
busy; row 1 1 outcome 1
events '14 1 1 1 0 0'
busy; client 1 attempt 1; row 1 2 outcome 1 value 55 known.2 3
events '14 1 2 2 0 0'
busy; client 1 attempt 1; row 1 2 outcome 2 known.2 3
events '14 1 2 2 0 0'
# the phase is not 1: idle, delivered, given up
busy; client 1 phase 0 attempt 0; row 1 2 outcome 1 value 55 known.2 3
events '14 1 2 2 0 0' '14 1 1 1 0 0'
busy; client 1 phase 2; row 1 2 outcome 1 value 55 known.2 3
events '14 1 2 2 0 0'
busy; client 1 phase 2 attempt 1
events '14 1 1 1 0 0'
busy; client 1 phase 3; row 1 2 outcome 2 known.2 3
events '14 1 2 2 0 0'
busy; client 1 phase 3 attempt 1; row 1 1 outcome 1
events '14 1 1 1 0 0'

# 15 to 17. Up becomes 0, nothing else changes. 18. Up and ready become 1; a database that is up may not recover.
busy
events '15 0 0 1 0 0' '15 0 0 3 0 0' '16 0 0 0 1 0' '16 0 0 0 2 0' '17 1 0 0 0 0' '17 2 0 0 0 0' '18 0 0 0 1 0' '18 0 0 0 2 0' '15 0 0 1 0 0'
busy; database 1 up 0; database 2 up 0
events '18 0 0 0 1 0' '18 0 0 0 2 0'
