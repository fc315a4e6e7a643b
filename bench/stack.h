// How much stack each call takes: it is made on a stack of its own that was painted before, and what is no longer paint was used.
#ifndef STACK_H
#define STACK_H

#include "index.h"
#include "scans.h"

enum entry { NOTHING, OPENING, SUBMISSION, STEP, RUN, TAKING, WITHDRAWAL, REPORT, AUDIT, WINDOW_BEGIN, WINDOW_UPDATE, ENTRIES };

// Paints the stack of every call.
void paint(void);

// The calls, each on its painted stack. A run and an audit give what they gave; the number of any other is not looked at.
void painted_open(struct index index, uint32_t places);
void painted_submit(struct index index, uint32_t s, struct call call);
void painted_step(struct index index, uint32_t s);
uint32_t painted_run(struct index index, uint32_t s);
void painted_take(struct index index, uint32_t s);
void painted_withdraw(struct index index, uint32_t s);
void painted_report(struct index index);
bool painted_audit(struct index index);

// Paints the stacks, then begins a window of this length and brings it up to date with readings in range and out of it, and in every state that one
// changed number leaves.
void paint_scans(uint32_t length);

// The bytes that the calls of an entry have used since the painting, the most of any, less those of a call that does nothing.
size_t stack_used(enum entry entry);

#endif
