/* States and sessions of every kind. */
#ifndef STATES_H
#define STATES_H

#include "bulitampaw.h"

/* A fresh state, one that keeps its rule, one of which a part is damaged, or anything. */
bulitampaw_state any_state(void);

/* A session with such a state that holds something, sometimes more than there is room for. */
bulitampaw_session any_session(void);

/* Whether two are the same in every field. */
int same_state(const bulitampaw_state *one, const bulitampaw_state *other);
int same_session(const bulitampaw_session *one, const bulitampaw_session *other);

#endif
