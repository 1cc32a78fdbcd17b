# Prints the script of one case: first what is held, `held` names or locks, and then `calls` calls. Links are emptied often
# enough that no queue of letters or operations grows long.
function settle(i, every) { if (i % every == every - 1) print "settle" }
function nodes(k,   i, s) { s = ""; for (i = 0; i < k; i++) s = s " " substr("abcdefgh", i + 1, 1); return s }
# A name for each of `held` processes of node a, which are all spawned.
function names_held(   i) {
  for (i = 0; i < held; i++) { printf "spawn a\nregister a n%08d a.%d\n", i, i + 1; settle(i, 100) }
  print "settle"
}
BEGIN {
  one = kind == "register_alone" || kind == "whereis_alone" || kind == "strike_of_one_name" || kind == "lock_alone"
  one = one || kind == "table_printed" || kind == "refused_line" || kind == "register_falling"
  one = one || kind == "strike_after_exits" || kind == "exit_of_many_locks" || kind == "names_listed"
  if (one) print "cluster a"
  if (kind == "register_alone") {
    names_held()
    for (i = 0; i < calls; i++) { printf "register a x%08d a.%d\n", i, held + i + 1; settle(i, 100) }
  } else if (kind == "whereis_alone") {
    names_held()
    for (i = 0; i < calls; i++) printf "whereis a n%08d\n", (i * 7919) % held
  } else if (kind == "strike_of_one_name") {
    names_held()
    for (i = 0; i < calls; i++) {
      printf "spawn a\nregister a x%08d a.%d\nsettle\nexit a.%d\nsettle\n", i, held + i + 1, held + i + 1
    }
  } else if (kind == "lock_alone" || kind == "lock_at_four") {
    if (kind == "lock_at_four") print "cluster" nodes(4)
    for (p = 0; p < 25; p++) print "spawn a"
    for (i = 0; i < held; i++) { printf "set_lock a.%d r%08d p all 0\n", i % 25 + 1, i; settle(i, 25) }
    print "settle"
    for (i = 0; i < calls; i++) { printf "set_lock a.%d s%08d p all 0\n", i % 25 + 1, i; settle(i, 25) }
    print "settle"
    for (i = 0; i < calls; i++) { printf "del_lock a.%d s%08d p all\n", i % 25 + 1, i; settle(i, 25) }
  } else if (kind == "table_printed") {
    for (i = 0; i < calls; i++) { printf "register a n%08d a.%d\n", (i * 7919) % 1000003, i + 1; settle(i, 100) }
    print "settle"
    for (i = 0; i < 20; i++) print "table a"
  } else if (kind == "refused_line") {
    for (i = 0; i < calls; i++) print "exit a.9"
  } else if (kind == "register_at_eight") {
    print "cluster" nodes(8)
    for (i = 0; i < held + calls; i++) { printf "register a n%08d a.%d\n", i, i + 1; settle(i, 100) }
  } else if (kind == "register_falling") {
    for (i = 0; i < calls; i++) { printf "register a n%08d a.%d\n", calls - i, i + 1; settle(i, 100) }
  } else if (kind == "register_mixed_at_eight") {
    print "cluster" nodes(8)
    for (i = 0; i < calls; i++) { printf "register a n%08d a.%d\n", (i * 7919) % 1000003, i + 1; settle(i, 100) }
  } else if (kind == "rivals_of_three") {
    print "cluster a b c"
    for (i = 0; i < calls; i++) {
      printf "register a n%08d a.%d\nregister b n%08d b.%d\nsettle\nretry a\nsettle\nretry b\nsettle\n", i, i + 1, i, i + 1
    }
  } else if (kind == "strike_after_exits") {
    for (i = 0; i < held + calls; i++) printf "spawn a\nregister a x%08d a.%d\nsettle\nexit a.%d\nsettle\n", i, i + 1, i + 1
  } else if (kind == "exit_of_many_locks") {
    print "spawn a"
    for (i = 0; i < held; i++) printf "set_lock a.1 r%08d p all 0\nsettle\n", i
    if (calls) { print "exit a.1"; print "settle" }
  } else if (kind == "refused_join_in_a_queue") {
    print "cluster a"; print "lone d"
    for (i = 0; i < held; i++) printf "register d n%08d d.%d\n", i, i + 1
    print "join d a"
    for (i = 0; i < calls; i++) print "join d a"
  } else if (kind == "names_listed") {
    names_held()
    for (i = 0; i < calls; i++) print "names a"
  } else if (kind ~ /^clashes_/) {
    # Each name of the joiner is one of the cluster, too, where it has the rule that the case is named for.
    rule = substr(kind, length("clashes_") + 1)
    print "cluster a b"; print "lone d"
    for (i = 0; i < held; i++) { printf "re_register a n%08d a.%d %s\n", i, i + 1, rule; settle(i, 100) }
    print "settle"
    for (i = 0; i < held; i++) { printf "re_register d n%08d d.%d\n", i, i + 1; settle(i, 100) }
    print "settle"
    if (calls) { print "join d a"; print "settle" }
    print "table d"
  } else {
    # The names are held; what is measured is the one join, or the one departure, that moves them.
    mixed = kind == "join_of_mixed_names"
    print "cluster a b"; print "lone d"
    for (i = 0; i < held; i++) { printf "re_register a n%08d a.1\n", mixed ? 2 * i : i; settle(i, 100) }
    print "settle"
    for (i = 0; i < held; i++) { printf "re_register d n%08d d.1\n", mixed ? 2 * i + 1 : held + i; settle(i, 100) }
    print "settle"
    departs = kind == "departure_of_names"
    if (departs) { print "join d a"; print "settle" }
    if (calls) { print (departs ? "leave d" : "join d a"); print "settle" }
    print "members b"
  }
  print "settle"
}
