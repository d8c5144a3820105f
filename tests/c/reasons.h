/* The sets of inputs that are the reason's own. */
#ifndef REASONS_H
#define REASONS_H

void run_reasons(void);

#endif
