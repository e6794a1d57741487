# The edits that make a wrong engine of the peer: each clause of paper 01 left out, or read otherwise. Sourced by lent-finds.

# Number 5 is not asked in a kind, or of another party.
for actor in 'CLIENT, issue' 'CLIENT, time_out' 'SERVER, request_arrives' 'SERVER, compute' 'DATABASE, prepare_arrives' 'SERVER, vote_arrives' \
    'SERVER, ready_arrives' 'SERVER, write_decision' 'SERVER, suspect' 'SERVER, trust' 'SERVER, clean' 'DATABASE, decide_arrives' \
    'SERVER, acknowledgement_arrives' 'CLIENT, result_arrives' 'SERVER, server_crashes' 'DATABASE, database_crashes' 'CLIENT, client_crashes'; do
    wrong "5-not-asked-in-${actor#*, }" engine.c "$actor}" "NOBODY, ${actor#*, }}"
done
wrong 5-of-the-client-in-request engine.c 'SERVER, request_arrives}' 'CLIENT, request_arrives}'
wrong 5-of-the-sender-in-decide engine.c 'DATABASE, decide_arrives}' 'SERVER, decide_arrives}'
wrong 5-of-the-sender-in-result engine.c 'CLIENT, result_arrives}' 'SERVER, result_arrives}'
wrong 5-of-the-database-in-vote engine.c 'SERVER, vote_arrives}' 'DATABASE, vote_arrives}'
wrong 5-of-the-database-in-ready engine.c 'SERVER, ready_arrives}' 'DATABASE, ready_arrives}'
wrong 5-of-the-database-in-ack engine.c 'SERVER, acknowledgement_arrives}' 'DATABASE, acknowledgement_arrives}'
wrong 5-in-recovery engine.c 'NOBODY, database_recovers}' 'DATABASE, database_recovers}'
for kind in {1..14}; do
    wrong "5-behind-6-and-7-in-kind-$kind" engine.c 'if (!actor_is_up(kind->actor, &scene)) return PEER_PARTY_DOWN' "if (!actor_is_up(kind->actor, &scene)) {
        uint16_t lent[4000], number;
        for (size_t place = 0; place < length_of(counts); place++) lent[place] = table[place];
        number = kind->rule(&scene);
        for (size_t place = 0; place < length_of(counts); place++) table[place] = lent[place];
        return event->kind == $kind && number != PEER_ACCEPTED ? number : PEER_PARTY_DOWN;
    }"
done

# Numbers 3 and 4.
wrong 3-without-an-upper-end engine.c 'event->kind > PEER_LAST_KIND' 'event->kind > PEER_LAST_KIND + 1'
wrong 3-as-4 engine.c 'return PEER_UNKNOWN_KIND' 'return PEER_WRONG_FIELD'
for field in client attempt server database; do
    wrong "4-not-asked-of-$field" engine.c "event->$field, counts->${field}s)" "event->$field, counts->${field}s) + 1"
    wrong "4-$field-one-more" engine.c "event->$field, counts->${field}s)" "event->$field, counts->${field}s + 1u)"
done
wrong 4-not-asked-of-value engine.c 'field_fits(kind->value != NO_VALUE, event->value, most_value[kind->value])' 'true'
wrong 4-attempt-up-to-clients engine.c 'event->attempt, counts->attempts' 'event->attempt, counts->clients'
wrong 4-vote-up-to-3 engine.c '[VOTE] = 2' '[VOTE] = 3'
wrong 4-suspect-among-databases engine.c '[SERVER_ID] = counts->servers' '[SERVER_ID] = counts->databases'
wrong 4-zero-is-a-field engine.c '1 <= field && field <= most' 'field <= most'
wrong 4-unused-not-asked engine.c 'field <= most : field == 0' 'field <= most : true'

# A stray companion is kept, and a register is not written once.
wrong stray-yes-kept engine.c 'add_with_companion(&row[ROW_VOTED], &row[ROW_YES], database, yes)' \
    'row[ROW_VOTED] |= bit_of(database), row[ROW_YES] |= yes ? bit_of(database) : 0'
wrong stray-heard-yes-kept-by-vote engine.c 'add_with_companion(&row[ROW_HEARD], &row[ROW_HEARD_YES], database, has(row[ROW_YES], database))' \
    'row[ROW_HEARD] |= bit_of(database), row[ROW_HEARD_YES] |= row[ROW_YES] & bit_of(database)'
wrong stray-heard-yes-kept-by-ready engine.c 'add_with_companion(&scene->row[ROW_HEARD], &scene->row[ROW_HEARD_YES], scene->event.database, false)' \
    'add(&scene->row[ROW_HEARD], scene->event.database)'
wrong stray-committed-kept engine.c 'add_with_companion(&row[ROW_DECIDED], &row[ROW_COMMITTED], database, row[ROW_OUTCOME] == OUTCOME_COMMIT)' \
    'row[ROW_DECIDED] |= bit_of(database), row[ROW_COMMITTED] |= row[ROW_OUTCOME] == OUTCOME_COMMIT ? bit_of(database) : 0'
wrong companion-of-all engine.c 'take_away(companion, party)' '*companion = 0'
wrong register-overwritten engine.c 'if (row[ROW_OUTCOME] != OUTCOME_NONE) return' ''
wrong abort-overwritten engine.c 'row[ROW_OUTCOME] != OUTCOME_NONE) return' 'row[ROW_OUTCOME] == OUTCOME_COMMIT) return'
wrong commit-overwritten engine.c 'row[ROW_OUTCOME] != OUTCOME_NONE) return' 'row[ROW_OUTCOME] == OUTCOME_ABORT) return'
wrong stray-value-kept-at-an-abort engine.c 'row[ROW_VALUE] = value' 'if (value) row[ROW_VALUE] = value'
wrong stray-value-taken-for-a-decision engine.c 'row[ROW_OUTCOME] != OUTCOME_NONE) return' 'row[ROW_OUTCOME] != OUTCOME_NONE || row[ROW_VALUE]) return'

# 1, 2.
wrong issue-again engine.c 'scene->client[CLIENT_PHASE] != PHASE_IDLE' 'scene->client[CLIENT_PHASE] == PHASE_WAITING'
wrong issue-while-waiting engine.c 'scene->client[CLIENT_PHASE] != PHASE_IDLE' 'scene->client[CLIENT_PHASE] > PHASE_WAITING'
wrong issue-after-giving-up engine.c 'scene->client[CLIENT_PHASE] != PHASE_IDLE' 'scene->client[CLIENT_PHASE] % 3'
wrong issue-keeps-the-old-request engine.c '= scene->event.value;
    add(&row_of' '|= scene->event.value;
    add(&row_of'
wrong issue-clears-delivered engine.c 'scene->client[CLIENT_PHASE] = PHASE_WAITING' 'scene->client[CLIENT_DELIVERED] = 0, scene->client[CLIENT_PHASE] = PHASE_WAITING'
wrong issue-to-server-1-alone engine.c 'add(&row_of(scene, scene->event.client, 1)[ROW_SENT], 1)' 'row_of(scene, scene->event.client, 1)[ROW_SENT] = 1'
wrong timeout-of-the-served engine.c '!= PHASE_WAITING) return PEER_MUST_NOT' '== PHASE_IDLE) return PEER_MUST_NOT'
wrong timeout-of-the-delivered engine.c '!= PHASE_WAITING) return PEER_MUST_NOT' '% 3 == 0) return PEER_MUST_NOT'
wrong timeout-of-attempt-1 engine.c 'scene->event.client, scene->client[CLIENT_ATTEMPT]);
    current' 'scene->event.client, 1);
    current'
wrong timeout-to-server-1 engine.c 'current[ROW_SENT] = everyone(scene->counts.servers)' 'current[ROW_SENT] |= 1'
wrong timeout-to-as-many-as-databases engine.c 'current[ROW_SENT] = everyone(scene->counts.servers)' 'current[ROW_SENT] = everyone(scene->counts.databases)'

# 3, 4.
wrong request-not-sent engine.c 'if (!has(scene->row[ROW_SENT], scene->event.server)) return PEER_NOT_SENT' ''
wrong request-to-anyone engine.c '!has(scene->row[ROW_SENT], scene->event.server)' '!scene->row[ROW_SENT]'
wrong claim-overwritten engine.c 'if (scene->row[ROW_OWNER] == 0) scene' 'scene'
wrong claim-of-the-undecided engine.c 'if (scene->row[ROW_OWNER] == 0) scene' 'if (scene->row[ROW_OWNER] == 0 && scene->row[ROW_OUTCOME] == 0) scene'
wrong compute-elsewhere engine.c '!owns(scene) || scene->row[ROW_COMPUTED] != 0' 'scene->row[ROW_COMPUTED] != 0'
wrong compute-again engine.c '!owns(scene) || scene->row[ROW_COMPUTED] != 0' '!owns(scene)'
wrong compute-before-the-write engine.c '!owns(scene) || scene->row[ROW_COMPUTED] != 0' '!owns(scene) || scene->row[ROW_COMPUTED] != 0 || scene->row[ROW_WRITTEN]'
wrong compute-before-a-decision engine.c '!owns(scene) || scene->row[ROW_COMPUTED] != 0' '!owns(scene) || scene->row[ROW_COMPUTED] != 0 || scene->row[ROW_OUTCOME]'

# 5.
wrong prepare-not-sent engine.c 'if (row[ROW_COMPUTED] == 0) return PEER_NOT_SENT' ''
wrong prepare-sent-by-an-owner engine.c 'if (row[ROW_COMPUTED] == 0)' 'if (row[ROW_COMPUTED] == 0 || row[ROW_OWNER] == 0)'
wrong votes-again engine.c 'if (has(row[ROW_VOTED], database)) return PEER_ACCEPTED' ''
wrong late-prepare-votes-yes engine.c ' && !has(row[ROW_DECIDED], database)' ''
wrong late-for-all-databases engine.c '&& !has(row[ROW_DECIDED], database)' '&& !row[ROW_DECIDED]'
wrong late-once-committed engine.c '&& !has(row[ROW_DECIDED], database)' '&& !has(row[ROW_COMMITTED], database)'
wrong late-once-there-is-an-outcome engine.c '&& !has(row[ROW_DECIDED], database)' '&& !row[ROW_OUTCOME]'
wrong no-is-yes engine.c 'scene->event.value == SAYS_YES &&' ''

# 6, 7: what is sent, then the condition under which it is heard.
wrong vote-at-any-server engine.c '!owns(scene) || !has(row[ROW_VOTED], database)' '!has(row[ROW_VOTED], database)'
wrong vote-at-the-ownerless engine.c '!owns(scene) || !has(row[ROW_VOTED], database)' '(row[ROW_OWNER] && !owns(scene)) || !has(row[ROW_VOTED], database)'
wrong vote-not-cast engine.c '!owns(scene) || !has(row[ROW_VOTED], database)' '!owns(scene)'
wrong vote-of-yes engine.c '!owns(scene) || !has(row[ROW_VOTED], database)' '!owns(scene) || !has(row[ROW_VOTED] | row[ROW_YES], database)'
wrong heard-as-yes engine.c 'has(row[ROW_YES], database));' 'true);'
wrong ready-not-sent engine.c 'if (scene->database[DATABASE_READY] == 0) return PEER_NOT_SENT' ''
wrong ready-of-the-up engine.c 'scene->database[DATABASE_READY] == 0' '!scene->database[DATABASE_READY] || !scene->database[DATABASE_UP]'
wrong ready-at-any-server engine.c 'owns(scene) && listens(scene)' 'listens(scene)'
wrong ready-sent-to-the-owner engine.c 'scene->database[DATABASE_READY] == 0' '!scene->database[DATABASE_READY] || !owns(scene)'
wrong ready-asks-for-a-vote engine.c 'owns(scene) && listens(scene)' 'owns(scene) && has(scene->row[ROW_VOTED], scene->event.database) && listens(scene)'
wrong ready-heard-as-yes engine.c 'scene->event.database, false)' 'scene->event.database, true)'
wrong ready-heard-as-voted engine.c 'scene->event.database, false)' 'scene->event.database, has(scene->row[ROW_YES], scene->event.database))'
vote='if (listens(scene)) add'
ready='owns(scene) && listens(scene)'
computed='scene->row[ROW_COMPUTED] != 0'
unwritten='scene->row[ROW_WRITTEN] == 0'
unheard='!has(scene->row[ROW_HEARD], scene->event.database)'
wrong vote-heard-before-computing engine.c "$vote" "if ($unwritten && $unheard) add"
wrong vote-heard-after-the-write engine.c "$vote" "if ($computed && $unheard) add"
wrong vote-heard-again engine.c "$vote" "if ($computed && $unwritten) add"
wrong vote-heard-before-a-decision engine.c "$vote" "if (listens(scene) && row[ROW_OUTCOME] == 0) add"
wrong ready-heard-before-computing engine.c "$ready" "owns(scene) && $unwritten && $unheard"
wrong ready-heard-after-the-write engine.c "$ready" "owns(scene) && $computed && $unheard"
wrong ready-heard-again engine.c "$ready" "owns(scene) && $computed && $unwritten"
wrong ready-heard-before-a-decision engine.c "$ready" "$ready && scene->row[ROW_OUTCOME] == 0"

# 8.
wrong write-elsewhere engine.c '!owns(scene) || row[ROW_COMPUTED] == 0 ||' 'row[ROW_COMPUTED] == 0 ||'
wrong write-uncomputed engine.c '!owns(scene) || row[ROW_COMPUTED] == 0 ||' '!owns(scene) ||'
wrong write-again engine.c '|| row[ROW_WRITTEN] != 0 ||' '||'
wrong write-on-some-heard engine.c 'row[ROW_HEARD] != all' 'row[ROW_HEARD] == 0'
wrong write-on-none-heard engine.c '|| row[ROW_HEARD] != all' ''
wrong write-on-votes engine.c 'row[ROW_HEARD] != all' 'row[ROW_VOTED] != all'
wrong write-on-heard-as-yes engine.c 'row[ROW_HEARD] != all' '(row[ROW_HEARD] | row[ROW_HEARD_YES]) != all'
wrong commit-on-votes engine.c 'ones(row[ROW_HEARD_YES]) ==' 'ones(row[ROW_YES]) =='
wrong commit-on-some engine.c 'ones(row[ROW_HEARD_YES]) == scene->counts.databases' 'row[ROW_HEARD_YES]'
wrong abort-with-the-computed-value engine.c 'offer(row, OUTCOME_ABORT, 0)' 'offer(row, OUTCOME_ABORT, row[ROW_COMPUTED])'
wrong write-refused-where-written engine.c 'if (ones(' 'if (row[ROW_OUTCOME] != OUTCOME_NONE) return PEER_MUST_NOT;
    if (ones('
wrong write-not-kept engine.c 'row[ROW_WRITTEN] = 1' ''
wrong writer-does-not-terminate engine.c 'row[ROW_WRITTEN] = 1;
    add(&row[ROW_TERMINATING], scene->event.server)' 'row[ROW_WRITTEN] = 1'
wrong writer-terminates-alone engine.c 'row[ROW_WRITTEN] = 1;
    add(&row[ROW_TERMINATING], scene->event.server)' 'row[ROW_WRITTEN] = 1;
    row[ROW_TERMINATING] = bit_of(scene->event.server)'

# 9 to 11.
itself='if (scene->event.value == scene->event.server) return PEER_MUST_NOT;
    '
wrong suspects-itself engine.c "${itself}add" 'add'
wrong trusts-itself engine.c "${itself}take_away" 'take_away'
wrong suspects-one-alone engine.c 'add(&scene->server[SERVER_SUSPECTS], scene->event.value)' 'scene->server[SERVER_SUSPECTS] = bit_of(scene->event.value)'
wrong trusts-all engine.c 'take_away(&scene->server[SERVER_SUSPECTS], scene->event.value)' 'scene->server[SERVER_SUSPECTS] = 0'
wrong clean-of-the-unclaimed engine.c 'owner == 0 || owns(scene) || !has(scene->server[SERVER_SUSPECTS], owner)' \
    'owner != 0 && (owns(scene) || !has(scene->server[SERVER_SUSPECTS], owner))'
wrong clean-by-the-owner engine.c 'owner == 0 || owns(scene) ||' 'owner == 0 ||'
wrong clean-of-the-unsuspected engine.c '|| !has(scene->server[SERVER_SUSPECTS], owner)' ''
wrong clean-on-any-suspicion engine.c '!has(scene->server[SERVER_SUSPECTS], owner)' '!scene->server[SERVER_SUSPECTS]'
wrong clean-forces-abort engine.c 'offer(scene->row, OUTCOME_ABORT, 0)' 'scene->row[ROW_OUTCOME] = OUTCOME_ABORT, scene->row[ROW_VALUE] = 0'
wrong clean-refused-where-decided engine.c 'offer(scene->row, OUTCOME_ABORT, 0)' 'if (scene->row[ROW_OUTCOME]) return PEER_MUST_NOT;
    offer(scene->row, OUTCOME_ABORT, 0)'
wrong cleaner-does-not-terminate engine.c 'add(&scene->row[ROW_TERMINATING], scene->event.server)' ''
wrong cleaner-writes engine.c 'offer(scene->row, OUTCOME_ABORT, 0)' 'scene->row[ROW_WRITTEN] = 1, offer(scene->row, OUTCOME_ABORT, 0)'

# 12, 13.
wrong decide-of-anyone engine.c '!has(row[ROW_TERMINATING], sender) || row[ROW_OUTCOME] == OUTCOME_NONE' 'row[ROW_OUTCOME] == OUTCOME_NONE'
wrong decide-without-an-outcome engine.c '!has(row[ROW_TERMINATING], sender) || row[ROW_OUTCOME] == OUTCOME_NONE' '!has(row[ROW_TERMINATING], sender)'
wrong decide-of-the-owner engine.c '!has(row[ROW_TERMINATING], sender) ||' 'row[ROW_OWNER] != sender ||'
wrong decides-again engine.c 'if (!has(row[ROW_DECIDED], database))' ''
wrong decides-commit engine.c 'database, row[ROW_OUTCOME] == OUTCOME_COMMIT)' 'database, true)'
wrong decides-by-its-vote engine.c 'database, row[ROW_OUTCOME] == OUTCOME_COMMIT)' 'database, row[ROW_OUTCOME] == OUTCOME_COMMIT && has(row[ROW_YES], database))'
wrong acknowledged-once engine.c 'add(&row[sent_to(sender)], database)' 'else return PEER_ACCEPTED;
    add(&row[sent_to(sender)], database)'
wrong acknowledged-to-the-owner engine.c 'add(&row[sent_to(sender)], database)' 'add(&row[sent_to(row[ROW_OWNER] ? row[ROW_OWNER] : sender)], database)'
wrong decide-asks-the-sender engine.c 'if (!has(row[ROW_TERMINATING], sender)' 'if (!scene->server[SERVER_UP] || !has(row[ROW_TERMINATING], sender)'
wrong ack-not-sent engine.c 'if (!has(row[sent_to(server)], database)) return PEER_NOT_SENT' ''
wrong ack-of-any-database engine.c '!has(row[sent_to(server)], database)' '!row[sent_to(server)]'
wrong ack-sent-to-another engine.c '!has(row[sent_to(server)], database)' '!has(row[sent_to(1)] | row[sent_to(scene->counts.servers)], database)'
wrong ack-of-the-undecided engine.c '!has(row[sent_to(server)], database)' '!has(row[sent_to(server)] & row[ROW_DECIDED], database)'
wrong ack-known-alone engine.c 'add(&row[known_by(&scene->counts, server)], database)' 'row[known_by(&scene->counts, server)] = bit_of(database)'
wrong ack-known-by-another engine.c 'add(&row[known_by(&scene->counts, server)], database)' 'add(&row[known_by(&scene->counts, 1)], database)'

# 14.
wrong result-without-an-outcome engine.c 'row[ROW_OUTCOME] == OUTCOME_NONE || known != everyone(scene->counts.databases)' 'known != everyone(scene->counts.databases)'
wrong result-on-some-acknowledgements engine.c 'known != everyone(scene->counts.databases)' 'known == 0'
wrong result-on-acknowledgements-sent engine.c 'uint16_t known = row[known_by(&scene->counts, scene->event.server)]' 'uint16_t known = row[sent_to(scene->event.server)]'
wrong result-on-the-owners engine.c 'uint16_t known = row[known_by(&scene->counts, scene->event.server)]' 'uint16_t known = row[known_by(&scene->counts, row[ROW_OWNER] ? row[ROW_OWNER] : 1)]'
wrong result-of-the-terminating engine.c 'row[ROW_OUTCOME] == OUTCOME_NONE || known' '!has(row[ROW_TERMINATING], scene->event.server) || row[ROW_OUTCOME] == OUTCOME_NONE || known'
wrong result-in-any-phase engine.c 'client[CLIENT_PHASE] != PHASE_WAITING || client[CLIENT_ATTEMPT]' 'client[CLIENT_ATTEMPT]'
wrong result-again-once-delivered engine.c 'client[CLIENT_PHASE] != PHASE_WAITING || client[CLIENT_ATTEMPT]' 'client[CLIENT_PHASE] % 3 == 0 || client[CLIENT_ATTEMPT]'
wrong result-again-once-given-up engine.c 'client[CLIENT_PHASE] != PHASE_WAITING || client[CLIENT_ATTEMPT]' 'client[CLIENT_PHASE] % 2 == 0 || client[CLIENT_ATTEMPT]'
wrong result-of-any-attempt engine.c '|| client[CLIENT_ATTEMPT] != scene->event.attempt' ''
wrong result-of-an-earlier-attempt engine.c 'client[CLIENT_ATTEMPT] != scene->event.attempt' 'client[CLIENT_ATTEMPT] < scene->event.attempt'
wrong result-of-a-later-attempt engine.c 'client[CLIENT_ATTEMPT] != scene->event.attempt' 'client[CLIENT_ATTEMPT] > scene->event.attempt'
wrong computed-delivered engine.c 'client[CLIENT_DELIVERED] = row[ROW_VALUE]' 'client[CLIENT_DELIVERED] = row[ROW_COMPUTED]'
wrong nothing-delivered-for-0 engine.c 'client[CLIENT_DELIVERED] = row[ROW_VALUE]' 'if (row[ROW_VALUE]) client[CLIENT_DELIVERED] = row[ROW_VALUE]'
wrong aborted-value-delivered engine.c '        next_attempt(scene)' '        client[CLIENT_DELIVERED] = row[ROW_VALUE], next_attempt(scene)'
wrong gives-up-early engine.c 'client[CLIENT_ATTEMPT] == scene->counts.attempts' 'client[CLIENT_ATTEMPT] + 1 >= scene->counts.attempts'
wrong gives-up-for-the-next engine.c 'client[CLIENT_PHASE] = PHASE_GIVEN_UP' 'client[CLIENT_PHASE] = PHASE_GIVEN_UP, client[CLIENT_ATTEMPT]++'
wrong next-attempt-not-sent engine.c 'add(&row_of(scene, scene->event.client, client[CLIENT_ATTEMPT])[ROW_SENT], 1)' ''
wrong next-attempt-to-server-1-alone engine.c 'add(&row_of(scene, scene->event.client, client[CLIENT_ATTEMPT])[ROW_SENT], 1)' \
    'row_of(scene, scene->event.client, client[CLIENT_ATTEMPT])[ROW_SENT] = 1'
wrong next-attempt-to-the-sender engine.c 'client[CLIENT_ATTEMPT])[ROW_SENT], 1)' 'client[CLIENT_ATTEMPT])[ROW_SENT], scene->event.server)'
wrong next-attempt-unclaimed engine.c 'client[CLIENT_ATTEMPT]++;' 'client[CLIENT_ATTEMPT]++;
    row_of(scene, scene->event.client, client[CLIENT_ATTEMPT])[ROW_OWNER] = 0;'

# 15 to 18.
wrong crash-forgets-suspicions engine.c 'scene->server[SERVER_UP] = 0' 'scene->server[SERVER_UP] = scene->server[SERVER_SUSPECTS] = 0'
wrong crash-clears-ready engine.c 'scene->database[DATABASE_UP] = 0' 'scene->database[DATABASE_UP] = scene->database[DATABASE_READY] = 0'
wrong crash-gives-up engine.c 'scene->client[CLIENT_UP] = 0' 'scene->client[CLIENT_UP] = 0, scene->client[CLIENT_PHASE] = PHASE_GIVEN_UP'
wrong recovery-of-the-up engine.c 'if (scene->database[DATABASE_UP] == 1) return PEER_MUST_NOT' ''
wrong recovery-of-the-up-changes-nothing engine.c '== 1) return PEER_MUST_NOT' '== 1) return PEER_ACCEPTED'
wrong recovery-of-the-unready engine.c 'scene->database[DATABASE_UP] == 1) return' 'scene->database[DATABASE_UP] == 1 && scene->database[DATABASE_READY]) return'
wrong recovers-unready engine.c 'scene->database[DATABASE_READY] = 1' ''
wrong recovers-down engine.c 'scene->database[DATABASE_UP] = 1' ''

# Number 1.
for count in clients/CLIENTS servers/SERVERS databases/DATABASES attempts/ATTEMPTS; do
    test="from_one_to(counts->${count%/*}, MOST_${count#*/})"
    wrong "1-${count%/*}-one-more" table.c "$test" "${test%)} + 1)"
    wrong "1-${count%/*}-one-less" table.c "$test" "${test%)} - 1)"
    wrong "1-${count%/*}-from-0" table.c "$test" "(counts->${count%/*} == 0 || $test)"
    wrong "1-${count%/*}-not-asked" table.c "$test" true
done
wrong 1-any-length table.c '(!counts_in_range(counts) || length != length_of(counts)) return' '(!counts_in_range(counts)) return'
wrong 1-a-longer-table table.c '(!counts_in_range(counts) || length != length_of(counts)) return' '(!counts_in_range(counts) || length < length_of(counts)) return'
wrong 1-a-shorter-table table.c '(!counts_in_range(counts) || length != length_of(counts)) return' '(!counts_in_range(counts) || length > length_of(counts)) return'

# Number 2: each range not asked, or one less than it is; the coupling one way, the other way, not at all; the first or the last party or row alone.
for test in 'cells[SERVER_UP] > 1' 'cells[SERVER_SUSPECTS] > everyone(counts->servers)' 'cells[DATABASE_UP] > 1' 'cells[DATABASE_READY] > 1' 'cells[CLIENT_UP] > 1' \
    'cells[CLIENT_PHASE] > PHASE_GIVEN_UP' 'cells[CLIENT_ATTEMPT] > counts->attempts' 'row[ROW_OWNER] > counts->servers' 'row[ROW_OUTCOME] > OUTCOME_ABORT' \
    'row[ROW_WRITTEN] > 1' 'row[ROW_SENT] > servers' 'row[ROW_TERMINATING] > servers' 'row[ROW_VOTED] > databases' 'row[ROW_YES] > databases' \
    'row[ROW_HEARD] > databases' 'row[ROW_HEARD_YES] > databases' 'row[ROW_DECIDED] > databases' 'row[ROW_COMMITTED] > databases' 'row[place] > databases'; do
    wrong "2-unasked: $test" table.c "$test" false
    wrong "2-one-less: $test" table.c "$test" "${test/>/>=}"
done
coupling='(cells[CLIENT_ATTEMPT] == 0) != (cells[CLIENT_PHASE] == PHASE_IDLE)'
wrong 2-coupling-unasked table.c "$coupling" false
wrong 2-attempt-0-in-any-phase table.c "$coupling" 'cells[CLIENT_ATTEMPT] != 0 && cells[CLIENT_PHASE] == PHASE_IDLE'
wrong 2-phase-0-with-any-attempt table.c "$coupling" 'cells[CLIENT_ATTEMPT] == 0 && cells[CLIENT_PHASE] != PHASE_IDLE'
wrong 2-coupling-while-waiting table.c "$coupling" 'cells[CLIENT_ATTEMPT] == 0 && cells[CLIENT_PHASE] == PHASE_WAITING'
wrong 2-acknowledgements-of-server-1 table.c 'for (size_t place = ROW_ACKNOWLEDGEMENTS; place < row_cells(counts); place++)' 'for (size_t place = ROW_ACKNOWLEDGEMENTS; place < ROW_ACKNOWLEDGEMENTS + 1; place++)'
wrong 2-acknowledgements-sent-alone table.c 'place < row_cells(counts)' 'place < row_cells(counts) - counts->servers'
wrong 2-all-but-the-last-known table.c 'place < row_cells(counts)' 'place < row_cells(counts) - 1'
wrong 2-first-row-alone table.c '; row < table + length; row' '; row == table + row_at(counts, 1, 1); row'
wrong 2-all-but-the-last-row table.c '; row < table + length; row' '; row < table + row_at(counts, counts->clients, counts->attempts); row'
wrong 2-servers-but-the-last table.c 'server <= counts->servers; server++) {' 'server < counts->servers; server++) {'
wrong 2-databases-but-the-last table.c 'database <= counts->databases; database++) {' 'database < counts->databases; database++) {'
wrong 2-clients-but-the-last table.c 'client <= counts->clients; client++) {' 'client < counts->clients; client++) {'

# A refusal leaves every cell, and nothing outside the table is written.
wrong unsound-but-changed engine.c 'if (unsound) return unsound' 'if (unsound) return length > 0 ? table[length - 1] ^= 1 : 0, unsound'
wrong unknown-but-changed engine.c 'return PEER_UNKNOWN_KIND' 'return table[HEADER_CELLS] ^= 1, PEER_UNKNOWN_KIND'
wrong wrong-field-but-changed engine.c 'return PEER_WRONG_FIELD' 'return table[HEADER_CELLS] ^= 1, PEER_WRONG_FIELD'
wrong down-but-changed engine.c 'return PEER_PARTY_DOWN' 'return table[length_of(counts) - 1] ^= 1, PEER_PARTY_DOWN'
wrong unheard-but-written engine.c 'row[ROW_HEARD] != all) return PEER_MUST_NOT' 'row[ROW_HEARD] != all) return row[ROW_WRITTEN] = 1, PEER_MUST_NOT'
wrong not-sent-but-known engine.c 'if (!has(row[sent_to(server)], database)) return PEER_NOT_SENT' \
    'if (!has(row[sent_to(server)], database)) return add(&row[known_by(&scene->counts, server)], database), PEER_NOT_SENT'
wrong writes-behind-the-table engine.c 'scene->server[SERVER_UP] = 0' 'scene->server[SERVER_UP] = scene->table[length_of(&scene->counts)] = 0'
wrong writes-before-the-table engine.c 'scene->database[DATABASE_UP] = 0' 'scene->database[DATABASE_UP] = scene->table[-1] = 0'

# The list: an empty one asks 1 and 2; it counts what is accepted, stops at the refusal, and leaves what was accepted.
wrong list-unasked-where-empty engine.c '.refusal = look_over(table, length, &counts)' '.refusal = count ? look_over(table, length, &counts) : 0'
wrong list-unasked engine.c '.refusal = look_over(table, length, &counts)' '.refusal = (look_over(table, length, &counts), PEER_ACCEPTED)'
wrong list-loses-the-number engine.c '.refusal = look_over(table, length, &counts)' '.refusal = look_over(table, length, &counts) ? PEER_WRONG_SIZE : PEER_ACCEPTED'
wrong list-counts-the-refused engine.c 'if (ran.refusal == PEER_ACCEPTED) ran.accepted++' 'ran.accepted++'
wrong list-pretends-the-rest engine.c 'ran.refusal = apply_sound' 'if (ran.accepted == 0) ran.refusal = apply_sound'
wrong list-goes-on-behind-the-refusal engine.c 'if (ran.refusal == PEER_ACCEPTED) ran.accepted++' \
    'if (ran.refusal == PEER_ACCEPTED) ran.accepted++; else if (ran.accepted + 1 < count) apply_sound(table, &counts, &events[ran.accepted + 1])'
wrong list-leaves-nothing-at-a-refusal engine.c '    while (ran.refusal == PEER_ACCEPTED && ran.accepted < count) {
        ran.refusal = apply_sound(table, &counts, &events[ran.accepted]);' '    uint16_t lent[4000];
    for (size_t place = 0; place < length; place++) lent[place] = table[place];
    while (ran.refusal == PEER_ACCEPTED && ran.accepted < count) {
        ran.refusal = apply_sound(table, &counts, &events[ran.accepted]);
        for (size_t place = 0; ran.refusal && place < length; place++) table[place] = lent[place];'
