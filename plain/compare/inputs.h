/* What messages are written of, at random. */
#ifndef INPUTS_H
#define INPUTS_H

struct inputs;

/* Texts, lists and numbers that stay until the next are made. */
const struct inputs *random_inputs(void);

#endif
