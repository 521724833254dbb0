// The exported calls of the proved library, one line each and nowhere else: its numbers, each a u64, then its slices of bytes in
// their order, each lent to be read or to be written. The relay, the linked functions and the safe ones are all made from this.
exports! {
    aznifrem_map(limit, choice, mode; read code, write w, write p, write s, write t, write r, write q, write out);
    aznifrem_json(limit, choice, mode; read code, write w, write p, write s, write t, write r, write q, write out, write text);
    aznifrem_read(; read map);
    aznifrem_report_add(; write report, read map);
    aznifrem_report_join(; write report, read other);
    aznifrem_salvage(; read archive, write out, write report);
    aznifrem_follow(; read map, read code, read log, write work, write counts);
    aznifrem_inspect(mode; read code, read map, write w, write place);
    aznifrem_inspect_from(mode, from; read code, read map, write w, write rows);
}
