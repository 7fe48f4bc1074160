/* What the trial build has and the ordinary build has not: named points at which the plug is pulled, and a note of each taking of keys. */
#ifndef DESK_TRIAL_H
#define DESK_TRIAL_H

#include <stddef.h>
#include <stdint.h>

#ifdef TRIAL
/* Kills the process at the K-th passage of NAME where the environment has DESK_KILL=NAME:K. */
void trial_point(const char *name);

/* Where the environment has DESK_KEYS=FILE, adds a line to that file: how many bytes the keys have, and a check value of them. */
void trial_keys(const uint8_t *keys, size_t size);
#else
#define trial_point(name) ((void)0)
#define trial_keys(keys, size) ((void)(keys), (void)(size))
#endif

#endif
