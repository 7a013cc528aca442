/* Two stations, field by field: what lies between the fields is nobody's. */
#ifndef SAME_H
#define SAME_H

#include "olbiothar.h"

#include <string.h>

#define SAME(field) (memcmp(&a->field, &b->field, sizeof a->field) == 0)

/* What does not change while a station plays, and what does. */
static inline int same_kept(const olbiothar_station *a, const olbiothar_station *b) {
    return SAME(fixed.modules.count) && SAME(fixed.modules.sites) && SAME(fixed.modules.sending) && SAME(fixed.modes.count) &&
           SAME(fixed.modes.homes) && SAME(fixed.modes.periods) && SAME(fixed.modes.switches) && SAME(fixed.tasks.count) &&
           SAME(fixed.tasks.homes) && SAME(fixed.tasks.sizes) && SAME(fixed.tasks.worsts) &&
           SAME(fixed.controls.count) && SAME(fixed.controls.nodes) && SAME(fixed.controls.starts) && SAME(fixed.controls.stops) &&
           SAME(fixed.period) && SAME(fixed.pairs) && SAME(runs) && SAME(pair_tasks) && SAME(pair_deadlines) && SAME(pair_starts) &&
           SAME(pair_stops) && SAME(pair_modes);
}

static inline int same_state(const olbiothar_station *a, const olbiothar_station *b) {
    return SAME(play.clock) && SAME(play.running) && SAME(play.ages) && SAME(play.bytes) && SAME(play.givens) && SAME(play.out) &&
           SAME(play.held) && SAME(play.full) && SAME(play.loads) && SAME(nodes);
}

static inline int same_station(const olbiothar_station *a, const olbiothar_station *b) { return same_kept(a, b) && same_state(a, b); }

#undef SAME

#endif
