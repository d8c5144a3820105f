/* The sets of inputs that are the relay's own. */
#ifndef RELAYS_H
#define RELAYS_H

void run_relays(void);

#endif
